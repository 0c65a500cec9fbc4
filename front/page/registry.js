// The registry's page: reads what the office has, and shows the section that the address names. Each
// section has modules of its own.
import { readUser } from './asking.js';
import { setUpDraftForm, showDraftForm } from './drafting.js';
import { readDrafts } from './drafts.js';
import { byId } from './elements.js';
import { setUpHistory, showHistory } from './history.js';
import { applyOfficeNames, readLabels } from './labels.js';
import { setUpLateChanges, showLateForm } from './late.js';
import { setUpLists, showLists } from './lists.js';
import { setUpSessionForm } from './loading.js';
import { showProgress } from './messages.js';
import { count } from './numbers.js';
import { setUpOwnersForm, showOwnersForm } from './owners.js';
import { setUpPaper } from './paper.js';
import { setUpPublishing } from './publish.js';
import { readPublished, readSession, rereadDraft, rereadPublished } from './reading.js';
import { setUpSeats, showSeats } from './seats.js';
import { showSection, wanted } from './sections.js';
import { readService, showStanding } from './service.js';
import { setUpSetUp, showSetUp } from './setup.js';
import { office } from './state.js';
import { reread, setUpPictures, showTimetable } from './timetable.js';

/** Reads everything, and shows the section that was shown. Returns how much there is, in words. */
async function load() {
  await readUser();
  const text = await readSession();
  office.service = await readService();
  showStanding(office.service);
  office.names = await applyOfficeNames(text && await readLabels(), office.session);
  const published = text ? await readPublished() : null;
  if (!text) office.seats = null;
  const drafts = text ? await readDrafts() : [];
  office.timetables = [...(published ? [published] : []), ...drafts];
  const { section, timetable, exam } = wanted();
  const open = office.timetables.find(({ name }) => name === timetable);
  Object.assign(office, { section, exam, open: open?.name ?? null });
  showSection(section);
  if (open) showTimetable(open);
  showSeats(office);
  showLists();
  showLateForm();
  byId('session').hidden = office.session !== null;
  showSetUp();
  showDraftForm();
  showOwnersForm();
  if (section === 'history') await showHistory();
  office.summary = summaryText();
  return office.summary;
}

function summaryText() {
  const { session, timetables } = office;
  const drafts = timetables.filter(({ number }) => number).length;
  if (!session) return 'No session is loaded yet.';
  const published = timetables.length > drafts ? 'One timetable is published' : 'Nothing is published yet';
  const there = drafts ? count(drafts, 'draft') : 'no draft';
  return `${published}, and there ${drafts > 1 ? 'are' : 'is'} ${there}.`;
}

/**
 * Shows what the page's address names; a timetable that wasn't open, or whose conflicts weren't, is read
 * again.
 */
function follow() {
  const { section, timetable, exam } = wanted();
  if (section === office.section && timetable === office.open && exam === office.exam) return;
  const open = office.timetables.find(({ name }) => name === timetable);
  const isRead = timetable !== office.open || (section === 'conflicts' && section !== office.section);
  showProgress(`Opening ${timetable ?? section} …`, async () => {
    const found = isRead && open ? await (open.number ? rereadDraft(open.number) : rereadPublished()) : open;
    Object.assign(office, { section, exam, open: found?.name ?? null });
    const heading = showSection(section);
    if (section === 'history') await showHistory();
    window.scrollTo(0, 0);
    heading.focus();
    // It puts the focus on the exam, if the address names one.
    if (found) showTimetable(found);
    return isRead ? `${timetable} is shown.` : office.summary;
  });
}

setUpPublishing(reread, load);
setUpLateChanges(load);
setUpSessionForm(load);
setUpSetUp(load);
setUpDraftForm(load);
setUpOwnersForm();
setUpHistory(load);
setUpSeats(office, readSession);
setUpLists();
setUpPictures();
setUpPaper();
window.addEventListener('hashchange', follow);

const refresh = () => showProgress('Loading the timetables …', load);
byId('refresh').addEventListener('click', refresh);
byId('print').addEventListener('click', () => window.print());
refresh();
