package urlcheck

import (
	"errors"
	"fmt"
)

// The errors: why a text is refused, or why it wasn't checked.

var (
	// ErrMemory says that no memory was left. Nothing is said about the text.
	ErrMemory = errors.New("urlcheck: out of memory")
	// ErrProfile says that there is no profile of that number or name.
	ErrProfile = errors.New("urlcheck: no such profile")
)

// Violation is a rule that a text violates at a place.
type Violation struct {
	Rule Rule
	// Place counts code points, from 0.
	Place int
	// BytePlace is the same place in bytes: text[:BytePlace] is what is before it.
	BytePlace int
}

// Message is the sentence on this violation of the text, which was checked under the profile. It names the code point
// at the place, if there is one. If the place is after the end of the text, it is the rule's own sentence.
func (v Violation) Message(text string, profile Profile) string {
	if said := message(text, profile, v); said != "" {
		return said
	}
	return v.Rule.Sentence()
}

// Refusal is the error on a text, or a base, that isn't valid: its first violation, and if several are at that place the
// one whose rule comes first.
type Refusal struct {
	Violation
	// Profile is the one by which the text was checked.
	Profile Profile
}

// Error says where the text is refused, and why.
func (r *Refusal) Error() string {
	return fmt.Sprintf("urlcheck: refused at place %d: %s [%s]", r.Place, r.Rule.Sentence(), r.Rule)
}

// Message is the sentence on this refusal of the text, which names the code point at the place.
func (r *Refusal) Message(text string) string { return r.Violation.Message(text, r.Profile) }

// EncodingError is the error on a text, or a base, that isn't UTF-8.
type EncodingError struct {
	// Place and BytePlace are where the longest beginning that is UTF-8 ends, in code points and in bytes.
	Place, BytePlace int
}

// Error says up to where the text is UTF-8.
func (e *EncodingError) Error() string {
	return fmt.Sprintf("urlcheck: the text isn't UTF-8 from byte %d on", e.BytePlace)
}
