package urlcheck

// The setting under which texts are checked. calls.go has the calls.

// Checker checks texts under a profile, alone or against a base. The zero Checker has the standard profile and no base.
// It is a small value, never changes, and goroutines may share it.
type Checker struct {
	profile Profile
	base    *base
}

// By gives the checker of texts without a base, under a profile.
func By(profile Profile) Checker { return Checker{profile: profile} }

// Profile gives the profile.
func (c Checker) Profile() Profile { return c.profile }

// Base gives the text of the base, if texts are checked against one.
func (c Checker) Base() (string, bool) {
	if c.base == nil {
		return "", false
	}
	return c.base.text, true
}
