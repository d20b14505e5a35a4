package urlcheck

// The answers on a text: a valid one with its parts, the URL that it denotes, and a mended one.

// span is where a part is in the bytes of a text, from start up to the byte before end-1. One that the text lacks is the zero span.
type span struct{ start, end int }

// parts are the scheme, the host, the port, the path, the query and the fragment: a part is named by its place here.
type parts [6]span

// of gives a part of the text, and whether the text has it.
func (p *parts) of(text string, part int) (string, bool) {
	if at := p[part]; at.end > 0 {
		return text[at.start : at.end-1], true
	}
	return "", false
}

// withParts is a text with its parts. The second result is false for a part that the text lacks. The zero value, which
// comes with an error, is the empty text, and has no part.
type withParts struct {
	text  string
	parts parts
}

// String gives the whole text.
func (w withParts) String() string { return w.text }

// MarshalText gives the whole text, as in JSON.
func (w withParts) MarshalText() ([]byte, error) { return []byte(w.text), nil }

// Scheme gives the scheme, without its ":". A reference has none.
func (w withParts) Scheme() (string, bool) { return w.parts.of(w.text, 0) }

// Host gives the host, after "//". It may be empty.
func (w withParts) Host() (string, bool) { return w.parts.of(w.text, 1) }

// Port gives the port, without its ":". It may be empty.
func (w withParts) Port() (string, bool) { return w.parts.of(w.text, 2) }

// Path gives the path, with its first "/". It may be empty.
func (w withParts) Path() string {
	path, _ := w.parts.of(w.text, 3)
	return path
}

// Query gives the query, without its "?". It may be empty.
func (w withParts) Query() (string, bool) { return w.parts.of(w.text, 4) }

// Fragment gives the fragment, without its "#". It may be empty.
func (w withParts) Fragment() (string, bool) { return w.parts.of(w.text, 5) }

// HostKind is the kind of a host (URL Standard, section 3.1).
type HostKind uint32

const (
	// NoHost is the kind of a URL without a host.
	NoHost HostKind = iota
	// Domain is a domain, of a special URL.
	Domain
	// IPv4 is an IPv4 address.
	IPv4
	// IPv6 is an IPv6 address, written in brackets.
	IPv6
	// OpaqueHost is an opaque host, of a URL that isn't special.
	OpaqueHost
	// EmptyHost is the empty host.
	EmptyHost
)

// Valid is a valid URL string with its parts as they are written: capitals, escapes, dot segments and a default port
// stay. A reference has nothing of its base.
type Valid struct{ withParts }

// URL is the URL that a valid text denotes (URL Standard, section 4.1). Its String is serialized by section 4.5,
// and its parts are slices of that: a domain is in ASCII, and a default port isn't there.
type URL struct {
	withParts
	// HostKind says what kind of host it is.
	HostKind HostKind
	// HasOpaquePath says whether the path is opaque, as in "urn:isbn:1": it has no segments.
	HasOpaquePath bool
}

// MendKind says how a mended text differs from the refused one.
type MendKind uint32

const (
	// NoKind is the kind of what comes with an error.
	NoKind MendKind = iota
	// Same says that a second parser reads both texts as the same URL.
	Same
	// Escaped says that it doesn't; some code points are percent-encoded, and nothing else is changed.
	Escaped
	// Changed says that it is neither: the author has to look.
	Changed
	// Unchanged is the kind of a text that was valid.
	Unchanged
)

var kindNames = [...]string{"none", "same", "escaped", "changed", "valid"}

// String gives the word by which the command urlcheck mend writes the kind, such as "same".
func (k MendKind) String() string {
	if int(k) < len(kindNames) {
		return kindNames[k]
	}
	return "no kind"
}

// MarshalText gives the word of String.
func (k MendKind) MarshalText() ([]byte, error) { return []byte(k.String()), nil }

// Mended is a valid text in place of a refused one.
type Mended struct {
	// Text is the valid text; of a text that was valid, that text.
	Text string
	Kind MendKind
	// IsOffered says whether reports offer it as what to write. If not, its author seems to have meant another
	// link, or the text was valid.
	IsOffered bool
}
