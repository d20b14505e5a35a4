// Package urlcheck says whether a text is a valid URL string (WHATWG URL Standard, sections 3.4 and 4.3), alone or
// against a base.
//
// The functions check a text without a base, under the standard profile. A Checker has another profile, or a base.
// The checker itself is a library for C, of which each answer is proved: cgo finds it by pkg-config. Texts are handed
// over without a copy. There is no state, nothing has to be closed, and any goroutine may call.
//
// An error is a *Refusal, where the text violates a rule; an *EncodingError, if it isn't UTF-8; ErrProfile; or
// ErrMemory.
package urlcheck

// Check gives a valid text with its parts, under the standard profile. It allocates nothing, but for a refusal.
func Check(text string) (Valid, error) { return Checker{}.Check(text) }

// IsValid says whether the text is valid under the standard profile.
func IsValid(text string) bool { return Checker{}.IsValid(text) }

// Resolve gives the URL that the text denotes, under the standard profile.
func Resolve(text string) (URL, error) { return Checker{}.Resolve(text) }

// Mend gives the valid text to write in place of a refused one, under the standard profile. See Checker.Mend.
func Mend(text string) (Mended, error) { return Checker{}.Mend(text) }

// Violations gives all that is wrong with the text under the standard profile.
func Violations(text string) ([]Violation, error) { return Checker{}.Violations(text) }

// Profile says which texts are valid. Each profile accepts what the one before it accepts.
type Profile uint32

const (
	// Standard accepts the URL Standard's valid URL strings.
	Standard Profile = iota
	// Wide also accepts `_` and hyphens anywhere in domains, and any segments after an authority.
	Wide
	// Parser accepts each text that the Standard's parser accepts without a validation error, and no other.
	Parser
)

var profileNames = [...]string{"standard", "wide", "parser"}

// String gives the name by which the command urlcheck knows the profile, such as "wide".
func (p Profile) String() string {
	if int(p) < len(profileNames) {
		return profileNames[p]
	}
	return "no profile"
}

// MarshalText gives the name of String.
func (p Profile) MarshalText() ([]byte, error) { return []byte(p.String()), nil }

// ParseProfile gives the profile of a name, or ErrProfile.
func ParseProfile(name string) (Profile, error) {
	for number, known := range profileNames {
		if name == known {
			return Profile(number), nil
		}
	}
	return 0, ErrProfile
}
