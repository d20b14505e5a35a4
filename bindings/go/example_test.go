package urlcheck_test

import (
	"errors"
	"fmt"

	"yuccaeave.example/urlcheck"
)

func Example() {
	text := "https://example.com/a b"
	_, err := urlcheck.Check(text)
	var refused *urlcheck.Refusal
	if errors.As(err, &refused) {
		fmt.Println(refused.Place, refused.Rule, refused.Message(text))
	}
	// Output: 21 code-point U+0020 SPACE is not allowed in a URL
}

func ExampleCheck() {
	url, err := urlcheck.Check("https://example.com/a?q")
	if err != nil {
		fmt.Println(err)
		return
	}
	host, _ := url.Host()
	fmt.Println(host, url.Path())
	// Output: example.com /a
}

func ExampleAgainst() {
	page, err := urlcheck.Against("https://example.com/a/b.html", urlcheck.Standard)
	if err != nil {
		fmt.Println(err)
		return
	}
	url, err := page.Resolve("../c")
	fmt.Println(url, err)
	// Output: https://example.com/c <nil>
}

func ExampleBy() {
	fmt.Println(urlcheck.IsValid("http://a_b/"), urlcheck.By(urlcheck.Wide).IsValid("http://a_b/"))
	// Output: false true
}

func ExampleMend() {
	mended, err := urlcheck.Mend("http://h/a b")
	fmt.Println(mended.Text, mended.Kind, err)
	// Output: http://h/a%20b same <nil>
}

func ExampleViolations() {
	text := "http://h/ ^"
	found, _ := urlcheck.Violations(text)
	for _, violation := range found {
		fmt.Println(violation.Place, violation.Message(text, urlcheck.Standard))
	}
	// Output:
	// 9 U+0020 SPACE is not allowed in a URL
	// 10 U+005E CIRCUMFLEX ACCENT is not allowed in a URL
}

func ExampleChecker_CheckMany() {
	for number, err := range urlcheck.By(urlcheck.Standard).CheckMany([]string{"http://h/", "http://h/a b"}) {
		fmt.Println(number, err)
	}
	// Output:
	// 0 <nil>
	// 1 urlcheck: refused at place 10: this code point is not allowed in a URL [code-point]
}
