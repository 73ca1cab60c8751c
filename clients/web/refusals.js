// The name of each refusal of a request, what it means, and how its numbers A and B are told, from number 1 on.
// `scripts/gate/statuses --write` makes this of docs/statuses.txt.
export const REFUSALS = [
  ["LineTooLong", "the line has more than 8,192 bytes", ""],
  ["BadLine", "the line isn't a request", "at byte A"],
  ["BadFilter", "the text behind `where` is no filter", "at byte A"],
  ["UnknownSession", "the session isn't open", ""],
  ["SessionOpen", "the session is open", ""],
  ["TooManySessions", "16 sessions are open", ""],
  ["BadCache", "the cache isn't 1 to 131,072", ""],
  ["UnknownSeries", "no series has the name", ""],
  ["SeriesExists", "a series has the name", ""],
  ["TooManySeries", "there are 512 series", ""],
  ["OffGrid", "the time is no slot's: its distance from the start is no multiple of the step", ""],
  ["BeforeStart", "the time is before the start", ""],
  ["ValueTooLarge", "a value passes 10^18 in size", ""],
  ["RangeTooLong", "more than 256 values, or more than 4,096 slots to clear", ""],
  ["SeriesFull", "the series' length would pass 2^35, or the time of its last slot 2 * 10^18", ""],
  ["NoView", "the session has been answered no view, so there is nothing to zoom or pan", ""],
  ["BadWindow", "the window is empty, or an end of it too far from 0", ""],
  ["BadCanvas", "the width or the height isn't 1 to 4,096", ""],
  ["BadRange", "the range's low end is above its high end, or one of them passes 10^18 in size", ""],
  ["ViewTooLarge", "the view needs more coefficients than the session's client keeps", "A of B"],
  ["Full", "the edited book would need more pages than there are", "A of B"],
  ["LiveTooLarge", "to follow: the session's last view has no filter and may need more coefficients than its client keeps", "A of B"],
  ["OtherGrid", "the steps of the two series differ, or their starts by no multiple of the step", ""],
  ["SumTooLarge", "a sum in the window is more than 10^18 in size", ""],
];

/** The number of the refusal of a name. */
export const numberOf = (name) => REFUSALS.findIndex((refusal) => refusal[0] === name) + 1;
