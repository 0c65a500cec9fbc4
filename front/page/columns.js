// The columns of late changes and words of actions, with their other names; the columns
// of a session's files.
// Made by ./pages from tools/registry: don't edit it.
export const COLUMNS = {
  student: ['student id', 'student number', 'student no', 'id', 'candidate', 'candidate id',
    'candidate number', 'candidate no', 'matriculation number', 'matriculation no'],
  exam: ['code', 'course code', 'exam code', 'module code', 'unit code', 'paper code', 'exam number',
    'course', 'module', 'exam', 'unit', 'paper'],
  name: ['student name', 'full name', 'candidate name'],
  action: ['change', 'status', 'type'],
};
export const ACTIONS = {
  add: ['add', 'added', 'enrol', 'enrols', 'enroll', 'enrolled', 'in', '+'],
  drop: ['drop', 'dropped', 'withdraw', 'withdrawn', 'withdrew', 'remove', 'removed', 'delete', 'out',
    'unenrol', 'unenroll', '-'],
  new: ['new'],
};
export const FILES = {
  exams: ['code', 'title', 'minutes', 'department'],
  rooms: ['name', 'building', 'capacity', 'penalty'],
  periods: ['date', 'start', 'minutes', 'penalty'],
  enrolments: ['student', 'exam', 'name'],
  rules: ['rule', 'a', 'b', 'c'],
};
