-- What HAProxy asks of sessions.map, which the agent writes: since when the sessions of a user count, and which
-- have ended. The file is looked at each second. Each thread has its own copy. And the claims of a session that is
-- used, with a later end.
local path = os.getenv("FRONT_STATE") .. "/sessions.map"
-- No token is as young as this.
local never = "9000000000000000"
local version, since, gone = nil, {}, {}
local lives, most = tonumber(os.getenv("SESSION_UNUSED")), tonumber(os.getenv("SESSION_LONGEST"))

-- Reads the file if it is another one, which its first line says.
local function read()
  local file = io.open(path)
  if not file then return end
  local first = file:read("l")
  if first ~= version then
    local users, tokens = {}, {}
    for line in file:lines() do
      local kind, name, number = line:match("^(%a):(%S+) (%d+)$")
      if kind == "u" then users[name] = number end
      if kind == "t" then tokens[name] = true end
    end
    version, since, gone = first, users, tokens
  end
  file:close()
end

read()
core.register_converters("since", function(name) return since[name] or never end)
core.register_converters("has_ended", function(token) return gone[token] and "1" or "0" end)
-- Nothing if that would be little later, or too long after signing in ("i", in milliseconds, stays as it is: whatever
-- ends the sessions of before ends this one too).
core.register_converters("longer", function(claims)
  local first, at, ends = claims:match('^(.*"i":(%d+),"exp":)(%d+)}$')
  if not first then return "" end
  local longer = math.min(core.now().sec + lives, at // 1000 + most)
  if longer - ends < lives // 12 then return "" end
  return string.format("%s%d}", first, longer)
end)
core.register_task(function()
  while true do
    core.msleep(1000)
    pcall(read)
  end
end)
