package urlcheck

import "strconv"

// The rules. The library has their names and sentences; only their numbers are repeated here, as urlcheck.h has them.

// Rule is a rule that a text can violate. If several violations are at one place, the one whose rule comes first is named.
type Rule uint32

// Each rule by its number. Its name is given by String, and what it requires by Requires.
const (
	NoScheme Rule = iota + 1
	OpaqueBase
	TwoSlashes
	HostMissing
	HostDomain
	HostNumber
	HostIPv6
	HostCodePoint
	PortDigit
	PortRange
	FirstSegmentEmpty
	DriveAfterHost
	CodePoint
	Percent
)

// String gives the rule's name, such as "host-domain".
func (r Rule) String() string {
	if name := fixedText(ruleName, r); name != "" {
		return name
	}
	return "Rule(" + strconv.FormatUint(uint64(r), 10) + ")"
}

// MarshalText gives the name of String.
func (r Rule) MarshalText() ([]byte, error) { return []byte(r.String()), nil }

// Sentence says what is wrong at the place of a violation, without the code point that is there. Message names it.
func (r Rule) Sentence() string { return fixedText(ruleSentence, r) }

// Address gives the address of the section of the URL Standard that has the rule.
func (r Rule) Address() string { return fixedText(ruleAddress, r) }

// Requires says what the rule requires of a text.
func (r Rule) Requires() string { return fixedText(ruleRequires, r) }

// Section gives the number of that section, and what it calls what the rule is about.
func (r Rule) Section() string { return fixedText(ruleSection, r) }
