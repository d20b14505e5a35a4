// The words of 32 bits of an answer, as module/glue.h lays it out: what was found, how long that is which stands
// at `out_at`, and what the call says besides.
export const VERDICT = 0
export const RULE = 1
export const PLACE = 2
export const BYTE_PLACE = 3
export const LENGTH = 4
// For a check, and for a URL: where its parts end, and where the path begins, in bytes. 0xffffffff: it lacks the part.
export const SCHEME_END = 5
export const HOST_END = 6
export const PORT_END = 7
export const PATH_START = 8
export const PATH_END = 9
export const QUERY_END = 10
export const FRAGMENT_END = 11
// For a URL: the kind of its host, whether its path is opaque, and whether its text is the one that was resolved.
export const HOST_KIND = 12
export const OPAQUE_PATH = 13
export const IS_SAME = 14
// Of a mended text.
export const MEND_KIND = 5
export const IS_OFFERED = 6
// Of the lines that were checked in one call; the length is how many of them aren't valid.
export const LINES = 5
export const EMPTY_LINES = 6
export const NEXT_LINE = 7
export const ANSWER_WORDS = 15

// The words of a fault: its rule is the first.
export const FAULT_WORDS = 6
export const FAULT_PLACE = 2
export const FAULT_BYTE_PLACE = 4
// The words of a line that isn't valid.
export const ROW_WORDS = 7
export const ROW_LINE = 0
export const ROW_START = 1
export const ROW_LENGTH = 2
export const ROW_VERDICT = 3
export const ROW_RULE = 4
export const ROW_PLACE = 5
export const ROW_BYTE_PLACE = 6

// How a call ended: see `urlcheck_outcome` of include/urlcheck.h.
export const REFUSED = 1
export const BASE_REFUSED = 3
export const MEMORY = 5
export const MENDED = 8
export const DONE = 9
export const NO_PLACE = 15
export const NO_COLUMN = 16
// The rules of lines that aren't checked: see `urlcheck_line_rule` there.
export const LINE_NO_UTF8 = 101
export const LINE_TOO_LONG = 102
