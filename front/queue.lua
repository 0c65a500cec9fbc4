-- A HAProxy that has just begun waits for an office that doesn't answer as long as one that has seen it answer for
-- hours. It would take the first look that fails for the end of that office, so a reload beside an office that starts
-- again would refuse requests.
core.register_init(function()
  for _, backend in pairs(core.backends) do
    for _, server in pairs(backend.servers) do
      server:check_force_up()
    end
  end
end)
