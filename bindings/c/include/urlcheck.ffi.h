/* The declarations of urlcheck.h, for readers without a preprocessor: made by tools/make-ffi-header. */
typedef bool urlcheck_bool;
enum urlcheck_profile {
    URLCHECK_STANDARD = 0,
    URLCHECK_WIDE = 1,
    URLCHECK_PARSER = 2
};
enum urlcheck_outcome {
    URLCHECK_VALID = 0,
    URLCHECK_REFUSED = 1,
    URLCHECK_NO_UTF8 = 2,
    URLCHECK_BASE_REFUSED = 3,
    URLCHECK_BASE_NO_UTF8 = 4,
    URLCHECK_MEMORY = 5,
    URLCHECK_NO_PROFILE = 6,
    URLCHECK_NO_BASE = 7,
    URLCHECK_MENDED = 8,
    URLCHECK_DONE = 9,
    URLCHECK_NO_FORMAT = 10,
    URLCHECK_NO_UNIT = 11,
    URLCHECK_NO_RULE = 12,
    URLCHECK_NO_KIND = 13,
    URLCHECK_NO_COMPLETION = 14,
    URLCHECK_NO_PLACE = 15,
    URLCHECK_NO_COLUMN = 16,
    URLCHECK_NO_OFFSETS = 17,
    URLCHECK_NULL = 18,
    URLCHECK_FILE_NO_UTF8 = 19,
    URLCHECK_MENDED_NO_UTF8 = 20,
    URLCHECK_REPORTED_NO_UTF8 = 21,
    URLCHECK_NO_WORDING = 22
};
enum urlcheck_rule {
    URLCHECK_NO_SCHEME = 1,
    URLCHECK_OPAQUE_BASE = 2,
    URLCHECK_TWO_SLASHES = 3,
    URLCHECK_HOST_MISSING = 4,
    URLCHECK_HOST_DOMAIN = 5,
    URLCHECK_HOST_NUMBER = 6,
    URLCHECK_HOST_IPV6 = 7,
    URLCHECK_HOST_CODE_POINT = 8,
    URLCHECK_PORT_DIGIT = 9,
    URLCHECK_PORT_RANGE = 10,
    URLCHECK_FIRST_SEGMENT_EMPTY = 11,
    URLCHECK_DRIVE_AFTER_HOST = 12,
    URLCHECK_CODE_POINT = 13,
    URLCHECK_PERCENT = 14
};
typedef struct urlcheck_finding {
    uint32_t verdict;
    uint32_t rule;
    size_t place;
    size_t byte_place;
} urlcheck_finding;
typedef struct urlcheck_span {
    size_t start;
    size_t length;
    urlcheck_bool present;
} urlcheck_span;
typedef struct urlcheck_spans {
    urlcheck_span scheme;
    urlcheck_span host;
    urlcheck_span port;
    urlcheck_span path;
    urlcheck_span query;
    urlcheck_span fragment;
} urlcheck_spans;
typedef struct urlcheck_answer {
    urlcheck_finding found;
    urlcheck_spans parts;
} urlcheck_answer;
enum urlcheck_host {
    URLCHECK_DOMAIN = 1,
    URLCHECK_IPV4 = 2,
    URLCHECK_IPV6 = 3,
    URLCHECK_OPAQUE_HOST = 4,
    URLCHECK_EMPTY_HOST = 5
};
typedef struct urlcheck_record {
    urlcheck_finding found;
    size_t length;
    urlcheck_spans parts;
    uint32_t host;
    uint32_t opaque_path;
} urlcheck_record;
enum urlcheck_mend_kind {
    URLCHECK_SAME = 1,
    URLCHECK_ESCAPED = 2,
    URLCHECK_CHANGED = 3
};
typedef struct urlcheck_mended {
    urlcheck_finding found;
    uint32_t kind;
    uint32_t offered;
    size_t length;
} urlcheck_mended;
typedef struct urlcheck_fault {
    uint32_t rule;
    size_t place;
    size_t byte_place;
} urlcheck_fault;
typedef struct urlcheck_fault_count {
    urlcheck_finding found;
    size_t count;
} urlcheck_fault_count;
typedef struct urlcheck_base {
    urlcheck_finding found;
    uint32_t profile;
    uint32_t scheme;
    uint32_t opaque_path;
    uint32_t empty_host;
} urlcheck_base;
enum urlcheck_line_rule {
    URLCHECK_LINE_NO_UTF8 = 101,
    URLCHECK_LINE_TOO_LONG = 102,
    URLCHECK_LINE_NO_FILE = 103,
    URLCHECK_LINE_NO_LINE = 104,
    URLCHECK_LINE_LINE_RANGE = 105,
    URLCHECK_LINE_NO_COLUMN = 106,
    URLCHECK_LINE_COLUMN_RANGE = 107,
    URLCHECK_LINE_NO_LINK = 108
};
enum urlcheck_format {
    URLCHECK_GNU = 0,
    URLCHECK_CARET = 1,
    URLCHECK_JSON = 2,
    URLCHECK_GITHUB = 3,
    URLCHECK_SARIF = 4,
    URLCHECK_CHECKSTYLE = 5,
    URLCHECK_JUNIT = 6,
    URLCHECK_GITLAB = 7,
    URLCHECK_RDJSON = 8
};
enum urlcheck_unit {
    URLCHECK_CODE_POINTS = 0,
    URLCHECK_BYTES = 1,
    URLCHECK_UTF16 = 2,
    URLCHECK_SCREEN = 3
};
enum urlcheck_completion {
    URLCHECK_WHOLE = 0,
    URLCHECK_UNREAD = 1,
    URLCHECK_STOPPED = 2
};
enum urlcheck_text {
    URLCHECK_RULE_NAME = 0,
    URLCHECK_RULE_SENTENCE = 1,
    URLCHECK_RULE_ADDRESS = 2,
    URLCHECK_RULE_REQUIRES = 3,
    URLCHECK_RULE_SECTION = 4,
    URLCHECK_EXAMPLE_BASE = 5,
    URLCHECK_EXAMPLE = 6,
    URLCHECK_EXAMPLE_MENDED = 7,
    URLCHECK_FORMAT_NAME = 8,
    URLCHECK_UNIT_NAME = 9
};
enum urlcheck_wording {
    URLCHECK_WORDING_OPTIONS = 0,
    URLCHECK_WORDING_ARGUMENTS = 1,
    URLCHECK_WORDING_SQL = 2,
    URLCHECK_WORDING_NONE = 3
};
typedef struct urlcheck_batch {
    uint32_t outcome;
    size_t row;
    size_t valid;
    size_t length;
} urlcheck_batch;
typedef struct urlcheck_line {
    urlcheck_finding found;
    size_t start;
    size_t length;
    size_t next;
    size_t passed;
} urlcheck_line;
typedef struct urlcheck_written {
    urlcheck_finding found;
    size_t length;
} urlcheck_written;
typedef struct urlcheck_counted {
    urlcheck_finding found;
    uint64_t column;
} urlcheck_counted;
typedef struct urlcheck_region {
    uint64_t line;
    uint64_t column;
    uint64_t end_line;
    uint64_t end_column;
} urlcheck_region;
typedef struct urlcheck_reported_numbers {
    urlcheck_region region;
    urlcheck_region fix_region;
    size_t place;
    uint64_t repeat;
    uint32_t kind;
    uint32_t offered;
    size_t named;
} urlcheck_reported_numbers;
typedef struct urlcheck_reported {
    urlcheck_reported_numbers numbers;
    const uint8_t *file;
    size_t file_length;
    const uint8_t *rule;
    size_t rule_length;
    const uint8_t *uri;
    size_t uri_length;
    const uint8_t *message;
    size_t message_length;
    const uint8_t *within;
    size_t within_length;
    const uint8_t *text;
    size_t text_length;
    const uint8_t *fix;
    size_t fix_length;
} urlcheck_reported;
void urlcheck_prepare_to(urlcheck_base *answer, const uint8_t *base, size_t length, uint32_t profile);
void urlcheck_check_to(urlcheck_answer *answer, const uint8_t *text, size_t length, uint32_t profile,
                       const urlcheck_base *base);
urlcheck_bool urlcheck_is_valid(const uint8_t *text, size_t length, uint32_t profile, const urlcheck_base *base);
void urlcheck_faults_to(urlcheck_fault_count *answer, const uint8_t *text, size_t length, uint32_t profile,
                        const urlcheck_base *base, urlcheck_fault *out, size_t room);
void urlcheck_resolve_to(urlcheck_record *answer, const uint8_t *text, size_t length, uint32_t profile,
                         const uint8_t *base, size_t base_length, uint8_t *out, size_t room);
void urlcheck_mend_to(urlcheck_mended *answer, const uint8_t *text, size_t length, uint32_t profile,
                      const uint8_t *base, size_t base_length, uint8_t *out, size_t room);
void urlcheck_check_many_to(urlcheck_batch *answer, const uint8_t *texts, size_t length, const uint64_t *offsets,
                            size_t count, uint32_t profile, const urlcheck_base *base, uint8_t *verdicts,
                            uint8_t *rules, uint64_t *places);
void urlcheck_resolve_many_to(urlcheck_batch *answer, const uint8_t *texts, size_t length, const uint64_t *offsets,
                              size_t count, uint32_t profile, const uint8_t *base, size_t base_length,
                              uint8_t *verdicts, uint8_t *rules, uint64_t *places, uint64_t *ends, uint8_t *out,
                              size_t room);
void urlcheck_next_refused_to(urlcheck_line *answer, const uint8_t *lines, size_t length, size_t from,
                              uint32_t profile);
void urlcheck_report_begin_to(urlcheck_written *answer, uint32_t format, uint32_t unit, uint8_t *out, size_t room);
void urlcheck_report_file_begin_to(urlcheck_written *answer, uint32_t format, const uint8_t *file, size_t length,
                                   uint8_t *out, size_t room);
void urlcheck_diagnostic_to(urlcheck_written *answer, uint32_t format, uint32_t is_coloured, uint32_t is_first,
                            const urlcheck_reported *reported, uint8_t *out, size_t room);
void urlcheck_report_file_end_to(urlcheck_written *answer, uint32_t format, uint8_t *out, size_t room);
void urlcheck_report_end_to(urlcheck_written *answer, uint32_t format, uint32_t completion, uint8_t *out, size_t room);
void urlcheck_message_to(urlcheck_written *answer, const uint8_t *text, size_t length, uint32_t profile,
                         const urlcheck_base *base, uint32_t wording, uint32_t rule, size_t place, uint8_t *out,
                         size_t room);
void urlcheck_column_to(urlcheck_counted *answer, const uint8_t *text, size_t length, uint32_t unit, uint64_t start,
                        size_t place);
urlcheck_bool urlcheck_shows_mended(uint32_t format);
urlcheck_bool urlcheck_takes_unit(uint32_t format, uint32_t unit);
size_t urlcheck_text(uint32_t what, uint32_t number, uint8_t *out, size_t room);
size_t urlcheck_example_place(uint32_t rule);
uint32_t urlcheck_version(void);
