// The rows in which the server lays the picture out: what stands at which place, and some lengths.

export const LABEL = 96, BOX = 40, HEIGHT_OF_LABEL = 44;

export const [NAME, POSITION, LIVE, KIND, LANE, LEFT, TOP, WIDTH, CAPTION, FOLDED] = Array(10).keys();
export const [SORT, SOURCE, TARGET, ARROW_LIVE, FROM, TO, PATH, HEAD, DOTS, TOLD] = Array(10).keys();

// A message that is not done has no place in the journal.
export const isWaiting = (row) => row[POSITION] === null;

export const arrowKey = (row) => `${row[SORT]} ${row[SOURCE]} ${row[TARGET]}`;
