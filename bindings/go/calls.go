package urlcheck

// The calls of the library. A string's bytes, and the elements of a slice, are handed over as a pointer that cgo keeps
// in place for the call; they hold no pointers themselves, and the library keeps none.

// #cgo pkg-config: urlcheck
// #include <urlcheck.h>
// #if URLCHECK_VERSION / 100 != 5
// #error "this package is for liburlcheck 0.5"
// #endif
import "C"

import (
	"fmt"
	"sync"
	"unicode/utf8"
	"unsafe"
)

// base is a base that is valid by itself.
type base struct {
	text     string
	prepared C.urlcheck_base
}

// prepared gives the base as the library takes it: null if there is none.
func (c Checker) prepared() *C.urlcheck_base {
	if c.base == nil {
		return nil
	}
	return &c.base.prepared
}

// bytesOf gives where the bytes of a string begin, and how many they are.
func bytesOf(text string) (*C.uint8_t, C.size_t) {
	// (a string's header begins with that pointer; unsafe.StringData is there from Go 1.20 on)
	return *(**C.uint8_t)(unsafe.Pointer(&text)), C.size_t(len(text))
}

// baseBytes gives the bytes of the base, or a null pointer if there is none.
func (c Checker) baseBytes() (*C.uint8_t, C.size_t) {
	if c.base == nil {
		return nil, 0
	}
	return bytesOf(c.base.text)
}

// errorOf gives the error that a finding of a text or a base is.
func errorOf(found *C.urlcheck_finding, profile Profile) error {
	switch place, bytePlace := int(found.place), int(found.byte_place); found.verdict {
	case C.URLCHECK_VALID:
		return nil
	case C.URLCHECK_REFUSED, C.URLCHECK_BASE_REFUSED:
		return &Refusal{Violation{Rule(found.rule), place, bytePlace}, profile}
	case C.URLCHECK_NO_UTF8, C.URLCHECK_BASE_NO_UTF8:
		return &EncodingError{place, bytePlace}
	case C.URLCHECK_NO_PROFILE:
		return ErrProfile
	default:
		return ErrMemory
	}
}

// spanOf gives a part; one that is missing is the zero span, from which an empty part differs.
func spanOf(from C.urlcheck_span) span {
	if !from.present {
		return span{}
	}
	return span{int(from.start), int(from.start+from.length) + 1}
}

// partsOf gives the parts of a valid text, in the order of the struct parts.
func partsOf(from *C.urlcheck_spans) parts {
	return parts{spanOf(from.scheme), spanOf(from.host), spanOf(from.port), spanOf(from.path), spanOf(from.query),
		spanOf(from.fragment)}
}

// Against gives the checker of texts against a base, which is checked by itself under the same profile, once for all
// texts. The error is about the base, and each call of the checker that comes with it gives it, too.
func Against(text string, profile Profile) (Checker, error) {
	start, length := bytesOf(text)
	prepared := C.urlcheck_prepare(start, length, C.uint32_t(profile))
	return Checker{profile: profile, base: &base{text, prepared}}, errorOf(&prepared.found, profile)
}

// Check gives a valid text with its parts. It allocates nothing, but for a refusal.
func (c Checker) Check(text string) (Valid, error) {
	start, length := bytesOf(text)
	answer := C.urlcheck_check(start, length, C.uint32_t(c.profile), c.prepared())
	if answer.found.verdict != C.URLCHECK_VALID {
		return Valid{}, errorOf(&answer.found, c.profile)
	}
	return Valid{withParts{text, partsOf(&answer.parts)}}, nil
}

// IsValid says whether the text is valid: the fastest call. It is also false if no profile has the Checker's number,
// and if no memory was left for a domain that isn't ASCII. Check tells these apart.
func (c Checker) IsValid(text string) bool {
	start, length := bytesOf(text)
	return bool(C.urlcheck_is_valid(start, length, C.uint32_t(c.profile), c.prepared()))
}

// written gives the text that a call writes. The call is handed a buffer of this many bytes, of one at least, and gives
// the length of its text; if that is longer, it is called once more. The callers' first rooms hold what most calls
// write: a URL's text is rarely more than four bytes longer than the text that denotes it.
func written(room int, write func(out *C.uint8_t, room C.size_t) C.size_t) string {
	for {
		buffer := make([]byte, room)
		length := int(write((*C.uint8_t)(unsafe.Pointer(&buffer[0])), C.size_t(room)))
		if length <= room {
			buffer = buffer[:length]
			// (nobody else has these bytes, so they may be the string's)
			return *(*string)(unsafe.Pointer(&buffer))
		}
		room = length
	}
}

// Resolve gives the URL that the text denotes, against the base if there is one.
func (c Checker) Resolve(text string) (URL, error) {
	start, length := bytesOf(text)
	base, baseLength := c.baseBytes()
	var answer C.urlcheck_record
	url := written(int(length+baseLength)+4, func(out *C.uint8_t, room C.size_t) C.size_t {
		answer = C.urlcheck_resolve(start, length, C.uint32_t(c.profile), base, baseLength, out, room)
		return answer.length
	})
	if err := errorOf(&answer.found, c.profile); err != nil {
		return URL{}, err
	}
	return URL{withParts{url, partsOf(&answer.parts)}, HostKind(answer.host), answer.opaque_path != 0}, nil
}

// Mend gives the valid text to write in place of a refused one. For a valid text it gives the text itself, and its kind
// is Unchanged. If the edits make no valid text, the error is the *Refusal of the text.
func (c Checker) Mend(text string) (Mended, error) {
	start, length := bytesOf(text)
	base, baseLength := c.baseBytes()
	var answer C.urlcheck_mended
	mended := written(int(length+baseLength)+4, func(out *C.uint8_t, room C.size_t) C.size_t {
		answer = C.urlcheck_mend(start, length, C.uint32_t(c.profile), base, baseLength, out, room)
		return answer.length
	})
	if answer.found.verdict == C.URLCHECK_MENDED {
		return Mended{mended, MendKind(answer.kind), answer.offered != 0}, nil
	}
	if err := errorOf(&answer.found, c.profile); err != nil {
		return Mended{}, err
	}
	return Mended{text, Unchanged, false}, nil
}

// Violations gives all that is wrong with the text, by place and at one place by rule; nothing if it is valid.
func (c Checker) Violations(text string) ([]Violation, error) {
	start, length := bytesOf(text)
	for room := 4; ; {
		faults := make([]C.urlcheck_fault, room)
		answer := C.urlcheck_faults(start, length, C.uint32_t(c.profile), c.prepared(), &faults[0], C.size_t(room))
		if answer.found.verdict != C.URLCHECK_REFUSED {
			return nil, errorOf(&answer.found, c.profile)
		}
		if count := int(answer.count); count > room {
			room = count
			continue
		}
		return violationsOf(faults[:answer.count]), nil
	}
}

func violationsOf(faults []C.urlcheck_fault) []Violation {
	found := make([]Violation, len(faults))
	for row, fault := range faults {
		found[row] = Violation{Rule(fault.rule), int(fault.place), int(fault.byte_place)}
	}
	return found
}

// message gives the sentence on a violation of a text, or nothing if its place is after the end of the text.
func message(text string, profile Profile, violation Violation) string {
	start, length := bytesOf(text)
	return written(128, func(out *C.uint8_t, room C.size_t) C.size_t {
		return C.urlcheck_message(start, length, C.uint32_t(profile), nil, C.URLCHECK_WORDING_NONE,
			C.uint32_t(violation.Rule), C.size_t(violation.Place), out, room).length
	})
}

// The fixed texts of rules.
const (
	ruleName     = C.URLCHECK_RULE_NAME
	ruleSentence = C.URLCHECK_RULE_SENTENCE
	ruleAddress  = C.URLCHECK_RULE_ADDRESS
	ruleRequires = C.URLCHECK_RULE_REQUIRES
	ruleSection  = C.URLCHECK_RULE_SECTION
)

// fixedTexts are the fixed texts that were asked for.
var fixedTexts [5][Percent + 1]struct {
	once sync.Once
	text string
}

// fixedText gives a text of a rule, or the empty one if no rule has the number.
func fixedText(what uint32, rule Rule) string {
	if rule > Percent {
		return ""
	}
	kept := &fixedTexts[what][rule]
	kept.once.Do(func() {
		kept.text = written(96, func(out *C.uint8_t, room C.size_t) C.size_t {
			return C.urlcheck_text(C.uint32_t(what), C.uint32_t(rule), out, room)
		})
	})
	return kept.text
}

// Version gives the version of the library that answers, such as "0.5.0".
func Version() string {
	number := int(C.urlcheck_version())
	return fmt.Sprintf("%d.%d.%d", number/10000, number/100%100, number%100)
}

// columns are what is found of each of many texts.
type columns struct {
	verdicts, rules []C.uint8_t
	places          []C.uint64_t
}

func columnsOf(count int) columns {
	return columns{make([]C.uint8_t, count), make([]C.uint8_t, count), make([]C.uint64_t, count)}
}

// joined gives texts one after the other, and the offset before each and after the last. The bytes end with a NUL that
// no text has, so that there is always a first byte.
func joined(texts []string) ([]byte, []C.uint64_t) {
	length := 0
	for _, text := range texts {
		length += len(text)
	}
	bytes, offsets := make([]byte, 0, length+1), make([]C.uint64_t, 1, len(texts)+1)
	for _, text := range texts {
		bytes = append(bytes, text...)
		offsets = append(offsets, C.uint64_t(len(bytes)))
	}
	return append(bytes, 0), offsets
}

// CheckMany checks texts by one call of the library: of each text it gives the error that Check gives, or nil.
func (c Checker) CheckMany(texts []string) []error {
	if len(texts) == 0 {
		return nil
	}
	bytes, offsets := joined(texts)
	columns := columnsOf(len(texts))
	batch := C.urlcheck_check_many((*C.uint8_t)(&bytes[0]), C.size_t(len(bytes)), &offsets[0], C.size_t(len(texts)),
		C.uint32_t(c.profile), c.prepared(), &columns.verdicts[0], &columns.rules[0], &columns.places[0])
	return c.errors(texts, batch.outcome, &columns)
}

// ResolveMany gives the URL of each text, or the empty text and the error that Resolve gives.
func (c Checker) ResolveMany(texts []string) ([]string, []error) {
	if len(texts) == 0 {
		return nil, nil
	}
	bytes, offsets := joined(texts)
	base, baseLength := c.baseBytes()
	columns, ends := columnsOf(len(texts)), make([]C.uint64_t, len(offsets))
	var batch C.urlcheck_batch
	all := written(len(bytes)+len(texts)*(4+int(baseLength)), func(out *C.uint8_t, room C.size_t) C.size_t {
		batch = C.urlcheck_resolve_many((*C.uint8_t)(&bytes[0]), C.size_t(len(bytes)), &offsets[0],
			C.size_t(len(texts)), C.uint32_t(c.profile), base, baseLength, &columns.verdicts[0], &columns.rules[0],
			&columns.places[0], &ends[0], out, room)
		return batch.length
	})
	urls := make([]string, len(texts))
	for row := range urls {
		urls[row] = all[ends[row]:ends[row+1]]
	}
	return urls, c.errors(texts, batch.outcome, &columns)
}

// errors gives the error on each text, or nil. If the whole call did nothing, each text has that error.
func (c Checker) errors(texts []string, outcome C.uint32_t, columns *columns) []error {
	errs := make([]error, len(texts))
	for row, text := range texts {
		found := C.urlcheck_finding{verdict: outcome}
		if outcome == C.URLCHECK_DONE {
			found.verdict, found.rule = C.uint32_t(columns.verdicts[row]), C.uint32_t(columns.rules[row])
			found.place = C.size_t(columns.places[row])
			if found.verdict == C.URLCHECK_BASE_REFUSED || found.verdict == C.URLCHECK_BASE_NO_UTF8 {
				text = c.base.text
			}
			found.byte_place = bytePlace(text, found.place)
		}
		errs[row] = errorOf(&found, c.profile)
	}
	return errs
}

// bytePlace gives the bytes of this many code points at the beginning of a text, which are UTF-8.
func bytePlace(text string, place C.size_t) C.size_t {
	at := 0
	for ; place > 0; place-- {
		_, width := utf8.DecodeRuneInString(text[at:])
		at += width
	}
	return C.size_t(at)
}
