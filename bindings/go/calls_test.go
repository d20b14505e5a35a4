package urlcheck

import (
	"encoding/json"
	"errors"
	"fmt"
	"reflect"
	"strings"
	"sync"
	"testing"
)

// refusal gives the refusal that an error is.
func refusal(t *testing.T, err error) *Refusal {
	t.Helper()
	var refused *Refusal
	if !errors.As(err, &refused) {
		t.Fatalf("%v is no refusal", err)
	}
	return refused
}

func against(t *testing.T, text string, profile Profile) Checker {
	t.Helper()
	checker, err := Against(text, profile)
	if err != nil {
		t.Fatal(err)
	}
	return checker
}

func TestVersion(t *testing.T) {
	if !strings.HasPrefix(Version(), "0.5.") {
		t.Errorf("the library has the version %s", Version())
	}
}

func TestParts(t *testing.T) {
	url, err := Check("HTTPS://Example.com:443/a/../b?x#y")
	if err != nil {
		t.Fatal(err)
	}
	for _, part := range []struct {
		of     func() (string, bool)
		wanted string
	}{{url.Scheme, "HTTPS"}, {url.Host, "Example.com"}, {url.Port, "443"}, {url.Query, "x"}, {url.Fragment, "y"}} {
		if got, isThere := part.of(); got != part.wanted || !isThere {
			t.Errorf("%q, %v in place of %q", got, isThere, part.wanted)
		}
	}
	if url.Path() != "/a/../b" {
		t.Errorf("the path is %q", url.Path())
	}
	url, err = Check("urn:isbn:0451450523")
	if _, isThere := url.Host(); isThere || err != nil || url.Path() != "isbn:0451450523" {
		t.Errorf("%v, %v", url, err)
	}
}

func TestRefusal(t *testing.T) {
	text := "http://h/\u00e9\U0001f600 b"
	_, err := Check(text)
	refused := refusal(t, err)
	if refused.Rule != CodePoint || refused.Place != 11 || text[refused.BytePlace:] != " b" {
		t.Errorf("%+v", refused)
	}
	if said := refused.Message(text); said != "U+0020 SPACE is not allowed in a URL" {
		t.Errorf("it says %q", said)
	}
	if said := refused.Message(""); said != CodePoint.Sentence() {
		t.Errorf("of another text it says %q", said)
	}
}

func TestSentences(t *testing.T) {
	_, refused := Check("http://h/\u00e9 b")
	_, noUTF8 := Check("http://h/\u00e9\xff")
	_, noProfile := By(Profile(3)).Check("http://h/")
	_, noName := ParseProfile("narrow")
	for _, one := range []struct {
		err    error
		wanted string
	}{
		{refused, "urlcheck: refused at place 10: this code point is not allowed in a URL [code-point]"},
		{noUTF8, "urlcheck: the text isn't UTF-8 from byte 11 on"},
		{noProfile, "urlcheck: no such profile"},
		{noName, "urlcheck: no such profile"},
	} {
		if one.err == nil || one.err.Error() != one.wanted {
			t.Errorf("%v in place of %q", one.err, one.wanted)
		}
	}
}

func TestMessageNamesNoOption(t *testing.T) {
	_, err := Check("http://a_b/")
	if said := refusal(t, err).Message("http://a_b/"); said == "" || strings.Contains(said, "profile") {
		t.Errorf("it says %q", said)
	}
	if !By(Wide).IsValid("http://a_b/") {
		t.Error("the wide profile takes it")
	}
}

func TestTextsThatAreMistakes(t *testing.T) {
	for text, wanted := range map[string]Violation{
		"":              {NoScheme, 0, 0},
		"http://h/\x00": {CodePoint, 9, 9},
		"\x00":          {NoScheme, 0, 0},
	} {
		if _, err := Check(text); refusal(t, err).Violation != wanted {
			t.Errorf("%q: %v", text, err)
		}
	}
	var wrong *EncodingError
	for _, text := range []string{"http://h/\u00e9\xff", "http://h/\u00e9\xed\xa0\x80"} {
		_, err := Check(text)
		if !errors.As(err, &wrong) || wrong.Place != 10 || wrong.BytePlace != 11 {
			t.Errorf("%q: %v", text, err)
		}
		if errs := By(Standard).CheckMany([]string{text}); !reflect.DeepEqual(errs, []error{err}) {
			t.Errorf("%q among many: %v", text, errs)
		}
	}
	if _, err := Against("http://h/\xff", Standard); !errors.As(err, &wrong) || wrong.BytePlace != 9 {
		t.Error(err)
	}
	if _, err := Against("", Standard); refusal(t, err).Rule != NoScheme {
		t.Error(err)
	}
}

func TestProfilesThatAreMistakes(t *testing.T) {
	none := By(Profile(3))
	_, err := none.Check("http://h/")
	_, resolving := none.Resolve("http://h/")
	_, mending := none.Mend("http://h/")
	_, finding := none.Violations("http://h/")
	_, preparing := Against("http://h/", Profile(3))
	_, resolvingMany := none.ResolveMany([]string{"http://h/"})
	errs := append(append([]error{err, resolving, mending, finding, preparing}, resolvingMany...),
		none.CheckMany([]string{"http://h/"})...)
	for number, err := range errs {
		if err != ErrProfile {
			t.Errorf("%d: %v", number, err)
		}
	}
	if none.IsValid("http://h/") {
		t.Error("valid by no profile")
	}
}

func TestURL(t *testing.T) {
	record, err := against(t, "https://example.com:8080/a/b", Standard).Resolve("../\u00e9?q#f")
	if err != nil || record.String() != "https://example.com:8080/%C3%A9?q#f" {
		t.Fatal(record, err)
	}
	port, _ := record.Port()
	if record.HostKind != Domain || record.HasOpaquePath || port != "8080" || record.Path() != "/%C3%A9" {
		t.Errorf("%+v", record)
	}
	record, err = Resolve("urn:isbn:1")
	if err != nil || record.HostKind != NoHost || !record.HasOpaquePath {
		t.Errorf("%+v, %v", record, err)
	}
	long := strings.Repeat("\U0001f600", 10000)
	record, err = Resolve("http://h/" + long)
	if err != nil || record.String() != "http://h/"+strings.Repeat("%F0%9F%98%80", 10000) {
		t.Errorf("a URL longer than its text: %v", err)
	}
}

func TestMended(t *testing.T) {
	mended, err := Mend("http://h/a b")
	if err != nil || mended != (Mended{"http://h/a%20b", Same, true}) {
		t.Errorf("%+v, %v", mended, err)
	}
	mended, err = Mend("http://h/")
	if err != nil || mended != (Mended{"http://h/", Unchanged, false}) {
		t.Errorf("%+v, %v", mended, err)
	}
	if _, err = Mend("http://[::1"); refusal(t, err).Rule != HostIPv6 {
		t.Error(err)
	}
}

func TestViolations(t *testing.T) {
	found, err := Violations("http://h/" + strings.Repeat("^", 1000))
	if err != nil || len(found) != 1000 {
		t.Fatal(len(found), err)
	}
	for number, violation := range found {
		if violation != (Violation{CodePoint, 9 + number, 9 + number}) {
			t.Errorf("%d: %+v", number, violation)
		}
	}
	if found, err = Violations("http://h/"); len(found) != 0 || err != nil {
		t.Error(found, err)
	}
}

func TestMany(t *testing.T) {
	texts := []string{"http://h/", "", "x y", "http://h/\u00e9\U0001f600^", "//g/a"}
	refused, _ := Against("http://h/\u00e9 b", Standard)
	unread, _ := Against("\u00e9\xff", Standard)
	for _, checker := range []Checker{{}, against(t, "http://h/a/b", Wide), refused, unread} {
		errs := checker.CheckMany(texts)
		urls, resolving := checker.ResolveMany(texts)
		for row, text := range texts {
			_, err := checker.Check(text)
			record, _ := checker.Resolve(text)
			if !reflect.DeepEqual(errs[row], err) || !reflect.DeepEqual(resolving[row], err) {
				t.Errorf("%q: %v, %v in place of %v", text, errs[row], resolving[row], err)
			}
			if urls[row] != record.String() {
				t.Errorf("%q: %q in place of %q", text, urls[row], record)
			}
		}
	}
	urls, errs := By(Standard).ResolveMany(nil)
	if By(Standard).CheckMany(nil) != nil || urls != nil || errs != nil {
		t.Error("something of no texts")
	}
	if _, err := Check(""); !reflect.DeepEqual(By(Standard).CheckMany([]string{""}), []error{err}) {
		t.Error("one empty text")
	}
}

func TestNames(t *testing.T) {
	for rule := NoScheme; rule <= Percent; rule++ {
		if rule.Sentence() == "" || rule.Requires() == "" || rule.Section() == "" || !IsValid(rule.Address()) {
			t.Errorf("%v has no texts", rule)
		}
	}
	if Rule(0).String() != "Rule(0)" || Rule(15).String() != "Rule(15)" || Rule(15).Sentence() != "" {
		t.Error("rules that there aren't")
	}
	for _, profile := range []Profile{Standard, Wide, Parser} {
		if read, err := ParseProfile(profile.String()); read != profile || err != nil {
			t.Error(profile, err)
		}
	}
	if _, err := ParseProfile("narrow"); err != ErrProfile {
		t.Error(err)
	}
	if Profile(3).String() != "no profile" || MendKind(5).String() != "no kind" || Changed.String() != "changed" {
		t.Error("names of numbers")
	}
}

func TestAllocations(t *testing.T) {
	page := against(t, "https://example.com/a/b.html", Standard)
	texts := []string{"https://example.com/a?q#f", "../c.html"}
	for number, checker := range []Checker{{}, page} {
		text := texts[number]
		count := testing.AllocsPerRun(1000, func() {
			url, err := checker.Check(text)
			if err != nil || url.Path() == "" || !checker.IsValid(text) {
				t.Fatal(err)
			}
		})
		if count != 0 {
			t.Errorf("%q takes %v allocations", text, count)
		}
	}
	if count := testing.AllocsPerRun(1000, func() {
		if _, err := page.Resolve("../c.html"); err != nil {
			t.Fatal(err)
		}
	}); count > 2 {
		t.Errorf("a URL takes %v allocations", count)
	}
}

func TestGoroutinesShareABase(t *testing.T) {
	checker := against(t, "http://h/a/b", Parser)
	var all sync.WaitGroup
	for number := 0; number < 4; number++ {
		all.Add(1)
		go func() {
			defer all.Done()
			for round := 0; round < 1000; round++ {
				record, err := checker.Resolve("../c")
				_, refused := checker.Check("^")
				if err != nil || record.String() != "http://h/c" || refused == nil || refused.Error() == "" {
					t.Error(record, err, refused)
					return
				}
			}
		}()
	}
	all.Wait()
}

func TestZeroValues(t *testing.T) {
	url, err := Check("not a url")
	for part, of := range map[string]func() (string, bool){
		"scheme": url.Scheme, "host": url.Host, "port": url.Port, "query": url.Query, "fragment": url.Fragment,
	} {
		if text, isThere := of(); isThere || text != "" {
			t.Errorf("a text that is refused has the %s %q", part, text)
		}
	}
	if err == nil || url.Path() != "" || url != (Valid{}) {
		t.Errorf("%v, %v", url, err)
	}
	if mended, err := Mend("http://[::1"); err == nil || mended.Kind != NoKind || mended.Kind.String() != "none" {
		t.Errorf("%+v, %v", mended, err)
	}
	checker, refused := Against("a", Standard)
	_, checking := checker.Check("http://h/")
	_, resolving := checker.Resolve("http://h/")
	for _, err := range []error{refused, checking, resolving, checker.CheckMany([]string{"http://h/"})[0]} {
		if refusal(t, err).Rule != NoScheme {
			t.Error(err)
		}
	}
	if checker.IsValid("http://h/") {
		t.Error("valid against a base that is refused")
	}
}

func TestValuesInMapsAndJSON(t *testing.T) {
	known := map[string]Valid{}
	known["a"], _ = Check("http://h/a?q")
	if known["a"].Path() != "/a" {
		t.Error("a part of a URL in a map")
	}
	record, err := Resolve("HTTP://h/")
	mended, mending := Mend("http://h/a b")
	written, marshalling := json.Marshal([]interface{}{known["a"], record, CodePoint, Wide, mended})
	wanted := `["http://h/a?q","http://h/","code-point","wide",{"Text":"http://h/a%20b","Kind":"same","IsOffered":true}]`
	if string(written) != wanted || err != nil || mending != nil || marshalling != nil {
		t.Errorf("%s", written)
	}
}

func TestURLIsAStringer(t *testing.T) {
	url, err := Check("http://h/a")
	if said := fmt.Sprint(url); said != "http://h/a" || err != nil {
		t.Errorf("%q, %v", said, err)
	}
}
