package urlcheck

import "testing"

// TestWithoutMemory sees what each call says if no memory is left, as the library of told.c answers the text 5.
func TestWithoutMemory(t *testing.T) {
	checker := By(Standard)
	_, checking := checker.Check("5")
	_, resolving := checker.Resolve("5")
	_, mending := checker.Mend("5")
	_, finding := checker.Violations("5")
	_, preparing := Against("5", Standard)
	_, resolvingMany := checker.ResolveMany([]string{"5"})
	errs := append([]error{checking, resolving, mending, finding, preparing}, resolvingMany...)
	for number, err := range append(errs, checker.CheckMany([]string{"5"})...) {
		if err == nil || err.Error() != "urlcheck: out of memory" {
			t.Errorf("%d: %v", number, err)
		}
	}
}
