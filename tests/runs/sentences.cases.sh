# The sentence on each thing that can be wrong with a link, what follows it, and whether a text is offered in its place: worked
# out by hand from the rules of docs/rules/README.md and, for what a link shows of its author's intention, by reading it.

# says WORD.. : each row of standard input is RULE, TEXT and SENTENCE with `|` between two, read with escapes (`\0174` is `|`);
# a lint with these words of a list of the TEXTs says each SENTENCE, where `@@` is in the TEXT or else at its start
says() {
    local rule text sentence ahead number=0
    : >"$room/list"
    : >"$room/wanted"
    while IFS='|' read -r rule text sentence; do
        number=$((number + 1))
        text=$(printf '%b' "$text")
        ahead=${text%%@@*}
        [ "$ahead" != "$text" ] || ahead=
        printf '%s\n' "${text/@@/}" >>"$room/list"
        printf 'list:%s:%s: error: %b [%s]\n' "$number" "$((${#ahead} + 1))" "$sentence" "$rule" >>"$room/wanted"
    done
    (cd "$room" && "$program" lint --quiet "$@" list) >"$room/out" 2>"$room/err"
    ends_with 1 $? '' "sentences by lint $*"
    count=$((count + number))
    cmp -s "$room/wanted" "$room/out" || fail "sentences by lint $*: $(diff "$room/wanted" "$room/out")"
    awk '{ sub(/^list:[0-9]*:[0-9]*: /, ""); if (length($0) > 160) exit 1 }' "$room/out" ||
        fail "sentences by lint $*: one is longer than two lines of 80 columns"
}

# offers ANSWER WORD.. : of each line of standard input, a lint with these words says in JSON whether a text is offered
offers() {
    local answer=$1
    shift
    cat >"$room/list"
    (cd "$room" && "$program" lint --quiet --format json "$@" list) >"$room/out" 2>"$room/err"
    ends_with 1 $? '' "offers by lint $*"
    count=$((count + $(wc -l <"$room/list")))
    python3 - "$answer" "$room/list" "$room/out" >"$room/wrong" <<'PYTHON' || fail "offers by lint $*: $(cat "$room/wrong")"
import json, sys
answer, texts, report = sys.argv[1:]
texts = open(texts, encoding="utf-8").read().split("\n")[:-1]
said = {one["line"]: one.get("offered", False) for one in map(json.loads, open(report, encoding="utf-8"))}
wrong = [text for line, text in enumerate(texts, 1) if str(said.get(line)) != answer]
print(*wrong, sep="\n")
sys.exit(bool(wrong))
PYTHON
}

# No scheme and no base: a code point of which nothing is seen, or which opens a quotation of a link; then what is likely
# missing, by how the text begins. A template is named before anything is missing.
says <<'ROWS'
no-scheme| https://a/|U+0020 SPACE is before the scheme; leave it out
no-scheme|\xc2\xa0https://a/|U+00A0 is before the scheme; leave it out
no-scheme|"https://a/|U+0022 QUOTATION MARK is before the scheme; leave it out
no-scheme|\xc2\xabhttp://h/|U+00AB \xc2\xab is before the scheme; leave it out
no-scheme|\xe2\x80\x98http://h/|U+2018 \xe2\x80\x98 is before the scheme; leave it out
no-scheme|\xe2\x80\x9curn:a|U+201C \xe2\x80\x9c is before the scheme; leave it out
no-scheme|[http://h/|U+005B LEFT SQUARE BRACKET is before the scheme; leave it out
no-scheme|`http://h/|U+0060 GRAVE ACCENT is before the scheme; leave it out
no-scheme|"https://a/"|the link is in quotation marks; leave both of them out
no-scheme|'https://e.com/'|the link is in quotation marks; leave both of them out
no-scheme|\xe2\x80\x9curn:a\xe2\x80\x9d|the link is in quotation marks; leave both of them out
no-scheme|\xe2\x80\x98urn:a\xe2\x80\x99|the link is in quotation marks; leave both of them out
no-scheme|\xc2\xaburn:a\xc2\xbb|the link is in quotation marks; leave both of them out
no-scheme|\xe2\x80\x9ehttp://h/\xe2\x80\x9c|the link is in quotation marks; leave both of them out
no-scheme|\xe2\x80\x9ehttp://h/\xe2\x80\x9d|the link is in quotation marks; leave both of them out
no-scheme|\xe2\x80\x9ahttp://h/\xe2\x80\x98|the link is in quotation marks; leave both of them out
no-scheme|\xc2\xbbhttp://h/\xc2\xab|the link is in quotation marks; leave both of them out
no-scheme|\xe2\x80\x9ehttp://h/|U+201E \xe2\x80\x9e is before the scheme; leave it out
no-scheme|*https://a/*|the link is in asterisks; leave both of them out
no-scheme|_https://a/_|the link is in underscores; leave both of them out
no-scheme|*https://a/|U+002A ASTERISK is before the scheme; leave it out
no-scheme|(mailto:a%40b)|the link is in parentheses; leave both of them out
no-scheme|<https://a/>|the link is in angle brackets; leave both of them out
no-scheme|[https://a/]|the link is in square brackets; leave both of them out
no-scheme|`https://a/`|the link is in backticks; leave both of them out
no-scheme|"a"|there is no scheme and no base
no-scheme|(1:2)|there is no scheme and no base
no-scheme|http//a/b|there is no scheme and no base; a colon is missing after http
no-scheme|FILE///a|there is no scheme and no base; a colon is missing after FILE
no-scheme|https//:example.com|there is no scheme and no base; write :// in place of //:
no-scheme|https;//e.com|there is no scheme and no base; U+003B SEMICOLON is in place of a colon
no-scheme|http\xef\xbc\x9a//e.com/|there is no scheme and no base; U+FF1A \xef\xbc\x9a is in place of a colon
no-scheme|http;/e.com|there is no scheme and no base
no-scheme|https ://e.com/|there is no scheme and no base; U+0020 SPACE is not allowed in a scheme
no-scheme|ht tp://e.com/|there is no scheme and no base; U+0020 SPACE is not allowed in a scheme
no-scheme|http_s://e.com/|there is no scheme and no base; U+005F LOW LINE is not allowed in a scheme
no-scheme|h**p://e.com/|there is no scheme and no base; U+002A ASTERISK is not allowed in a scheme
no-scheme|a b:/c|there is no scheme and no base
no-scheme|1 a://c|there is no scheme and no base
no-scheme|example.com?u=http://h/|there is no scheme and no base; write https:// before a host, or give the address of its page (--base)
no-scheme|foo//a|there is no scheme and no base
no-scheme|//h:80a/|there is no scheme and no base; write https: before it, or give the address of its page (--base)
no-scheme|www.example.com|there is no scheme and no base; write https:// before a host, or give the address of its page (--base)
no-scheme|example.com/a b|there is no scheme and no base; write https:// before a host, or give the address of its page (--base)
no-scheme|example.md/a|there is no scheme and no base; write https:// before a host, or give the address of its page (--base)
no-scheme|127.0.0.1?q|there is no scheme and no base; write https:// before a host, or give the address of its page (--base)
no-scheme|localhost/a|there is no scheme and no base; write http:// before it
no-scheme|127.0.0.1:8000|there is no scheme and no base; write http:// before it
no-scheme|[::1]:80/|there is no scheme and no base; write http:// before it
no-scheme|[x]/|there is no scheme and no base
no-scheme|127.0.0.1:x|there is no scheme and no base
no-scheme|[a](https://e.com/)|there is no scheme and no base; this looks like Markdown: check the link in it
no-scheme|**https://e.com/**|there is no scheme and no base; this looks like Markdown: check the link in it
no-scheme|![a](https://e.com/b.png)|there is no scheme and no base; this looks like Markdown: check the link in it
no-scheme|href="https://e.com/"|there is no scheme and no base; this looks like HTML: check the link in it
no-scheme|data-src='a.png'|there is no scheme and no base; this looks like HTML: check the link in it
no-scheme|a=b|there is no scheme and no base
no-scheme|="b"|there is no scheme and no base
no-scheme|README.md|there is no scheme and no base; give the address of its page (--base)
no-scheme|index.html#top|there is no scheme and no base; give the address of its page (--base)
no-scheme|main.css|there is no scheme and no base; give the address of its page (--base)
no-scheme|docs/index.html|there is no scheme and no base; give the address of its page (--base)
no-scheme|a b/c.png?d|there is no scheme and no base; give the address of its page (--base)
no-scheme|a/b|there is no scheme and no base
no-scheme|v1.2.3|there is no scheme and no base; give the address of its page (--base)
no-scheme|./a b.html|there is no scheme and no base; give the address of its page (--base)
no-scheme|../a|there is no scheme and no base; give the address of its page (--base)
no-scheme|/a/b|there is no scheme and no base; give the address of its page (--base)
no-scheme|#top|there is no scheme and no base; give the address of its page (--base)
no-scheme|?q=1|there is no scheme and no base; give the address of its page (--base)
no-scheme|user\x40example.com|there is no scheme and no base; write mailto: before an address
no-scheme|user_a\x40example.com|there is no scheme and no base; write mailto: before an address
no-scheme|user+tag\x40example.com|there is no scheme and no base; write mailto: before an address
no-scheme|git+s_h://h/|there is no scheme and no base; U+005F LOW LINE is not allowed in a scheme
no-scheme|a#b://c|there is no scheme and no base
no-scheme|www.example.js|there is no scheme and no base; write https:// before a host, or give the address of its page (--base)
no-scheme|-a.example|there is no scheme and no base
no-scheme|a](b)|there is no scheme and no base
no-scheme|a b="c"|there is no scheme and no base
no-scheme|1:/a b|there is no scheme and no base
no-scheme|\thttps://a/|U+0009 CHARACTER TABULATION is before the scheme; leave it out
no-scheme|\x40example.com|there is no scheme and no base
no-scheme|git\x40example.com:a/b.git|there is no scheme and no base; this looks like a path of ssh
no-scheme|a_b.c/|there is no scheme and no base
no-scheme|a b|there is no scheme and no base
no-scheme|{{ page.url }}|there is no scheme and no base; this looks like a template: check what it makes
no-scheme|{% url 'a' %}|there is no scheme and no base; this looks like a template: check what it makes
no-scheme|\\\\server\\share|there is no scheme and no base; this looks like a path of Windows, whose URL begins with file:///
ROWS

# A path is told by an ending that files have and domains hardly ever.
says < <(for end in md html htm xhtml css js mjs ts json xml yml yaml toml csv txt rst pdf svg png jpg jpeg gif webp php; do
    echo "no-scheme|a/b.$end|there is no scheme and no base; give the address of its page (--base)"
done)

# Templates, by each mark of one.
template='; this looks like a template: check what it makes'
url='is not allowed in a URL'
says <<ROWS
code-point|https://h/@@{id}|U+007B LEFT CURLY BRACKET $url$template
code-point|https://h/@@{{ id }}|U+007B LEFT CURLY BRACKET $url$template
code-point|https://h/\$@@{VAR}|U+007B LEFT CURLY BRACKET $url$template
code-point|https://h/#@@{id}|U+007B LEFT CURLY BRACKET $url$template
percent|https://h/@@%(id)s|U+0025 PERCENT SIGN has to be followed by two hex digits$template
percent|https://h/@@%d|U+0025 PERCENT SIGN has to be followed by two hex digits$template
percent|https://h/@@%d/x|U+0025 PERCENT SIGN has to be followed by two hex digits$template
percent|https://h/@@%s.html|U+0025 PERCENT SIGN has to be followed by two hex digits$template
percent|https://h/@@%PUBLIC_URL%/x|U+0025 PERCENT SIGN has to be followed by two hex digits$template
code-point|https://h/@@<id>|U+003C LESS-THAN SIGN $url$template
code-point|https://h/v@@<id>/x|U+003C LESS-THAN SIGN $url$template
code-point|https://h/@@<a>-<b>.html|U+003C LESS-THAN SIGN $url$template
code-point|https://h/?q=@@<a>&b|U+003C LESS-THAN SIGN $url$template
code-point|https://h/@@<my_id>|U+003C LESS-THAN SIGN $url$template
code-point|https://h/@@<my-id>|U+003C LESS-THAN SIGN $url$template
code-point|https://h/@@[ID2]|U+005B LEFT SQUARE BRACKET $url$template
code-point|https://h/\x40My_call(a)@@ b|U+0020 SPACE $url$template
port-digit|https://h:@@PORT/|U+0050 LATIN CAPITAL LETTER P is not allowed in a port$template
code-point|https://h/@@<%= id %>|U+003C LESS-THAN SIGN $url$template
code-point|https://h/@@[ID]|U+005B LEFT SQUARE BRACKET $url$template
code-point|https://h/\$VERSION/a@@ b|U+0020 SPACE $url$template
percent|https://h/@@%D{x}|U+0025 PERCENT SIGN has to be followed by two hex digits$template
port-digit|https://h:@@{port}/|U+007B LEFT CURLY BRACKET is not allowed in a port$template
port-digit|https://h:@@\$PORT/|U+0024 DOLLAR SIGN is not allowed in a port$template
port-digit|https://h:@@port/|U+0070 LATIN SMALL LETTER P is not allowed in a port$template
host-domain|https://@@{host}/x|U+007B LEFT CURLY BRACKET is not allowed in a domain$template
host-domain|https://@@YOUR_DOMAIN/x|U+005F LOW LINE is not allowed in a domain$template
host-domain|https://@@HOST_2:80/|U+005F LOW LINE is not allowed in a domain$template
host-domain|https://@@%DOMAIN%/x|U+0025 PERCENT SIGN is not allowed in a domain$template
ROWS
# Each sign of a template and a link that shows it: the page has the same signs, and the program says so of each link. In code
# only the first nine are such signs.
cat >"$room/signs" <<'ROWS'
{{ }}	https://h/{{ id }}
{% %}	https://h/{% url %}
${ }	https://h/${VAR}/a b
<% %>	https://h/<%= id %>
<?php	https://h/?id=<?php echo $id; ?>
<?=	https://h/<?= $id ?>
<!--#	https://h/<!--#echo var=X -->
[% %]	https://h/[% url %]
*|NAME|*	https://h/*|UNSUB|*
{name}	https://h/{id}
%s	https://h/%s.html
%d	https://h/%d/x
%(name)s	https://h/%(id)s
%%NAME%%	https://h/%%PUBLIC URL%%
%NAME%	https://h/%PUBLIC_URL%/x
$NAME	https://h/$VERSION/a b
$(name)	https://h/$(base)/x y
<name>	https://h/v<id>/x
[NAME]	https://h/[ID]
[[ ]]	https://h/[[ url ]]
|NAME|	https://h/|DATE|/a
@NAME@	https://h/@URL@/a b
@@ @@	https://h/@@X Y@@
@(name)	https://h/@(Url) b
@Name.Call()	https://h/@Url.Action('a', 'b c')
host:port	http://h:port/
HOST_NAME	https://HOST_NAME/a b
ROWS
python3 - "$room" "$here/../../docs/FORMATS.md" <<'PYTHON' || fail "signs of templates: $(cat "$room/wrong")"
import re, sys
room, page = sys.argv[1:]
signs = [row.split("\t") for row in open(room + "/signs", encoding="utf-8").read().split("\n")[:-1]]
block = open(page, encoding="utf-8").read().split("\nThese signs show a template.")[1].split("```text\n")[1].split("\n```")[0]
told = re.split("  |\n", block)
links = [link for _, link in signs]
open(room + "/shown", "w", encoding="utf-8").write("\n".join(links + [it.replace("https://h/", "data:,") for it in links[:9]]) + "\n")
code = [it.replace("https://h/", "data:,") for it in links[9:] if it.startswith("https://h/")]
open(room + "/code", "w", encoding="utf-8").write("\n".join(code) + "\n")
open(room + "/wrong", "w", encoding="utf-8").write("" if told == [sign for sign, _ in signs] else f"the page has {told}")
sys.exit(told != [sign for sign, _ in signs])
PYTHON
"$program" lint --quiet --format json "$room/shown" >"$room/out" 2>"$room/err"
ends_with 1 $? '' 'links that show a template'
[ "$(grep -c 'this looks like a template: check what it makes"' "$room/out")" = 36 ] || fail "links that show a template: $(cat "$room/out")"
! grep '"offered":true' "$room/out" || fail 'a template is offered'
"$program" lint --quiet --format json "$room/code" >"$room/out" 2>"$room/err"
ends_with 1 $? '' 'code that looks like a template'
! grep 'this looks like a template' "$room/out" || fail 'code is taken for a template'

# An escape that is cut off isn't a template, and it has no other digit that somebody would guess.
says <<ROWS
percent|https://fr.wikipedia.org/wiki/Caf%C3@@%A|U+0025 PERCENT SIGN has to be followed by two hex digits; this escape is cut off
percent|https://h/%D0%9F%D0@@%B|U+0025 PERCENT SIGN has to be followed by two hex digits; this escape is cut off
percent|https://h/@@%4%20|U+0025 PERCENT SIGN has to be followed by two hex digits; this escape is cut off
percent|https://h/@@%4?a|U+0025 PERCENT SIGN has to be followed by two hex digits
percent|https://h/@@%|U+0025 PERCENT SIGN has to be followed by two hex digits
ROWS
says --base http://h/ <<ROWS
code-point|@@ %C3%A|U+0020 SPACE $url
ROWS
# Texts with the same code points that aren't templates: JSON in a query, code, arrays in a query, a percentage.
says <<ROWS
code-point|https://h/?q=@@{"a":1}|U+007B LEFT CURLY BRACKET $url
percent|https://x.org/100@@%sure|U+0025 PERCENT SIGN has to be followed by two hex digits
percent|https://h/5@@%sale|U+0025 PERCENT SIGN has to be followed by two hex digits
percent|https://h/%41@@%G|U+0025 PERCENT SIGN has to be followed by two hex digits
code-point|https://h/?titles=NASA@@\0174ESA\0174JAXA|U+007C VERTICAL LINE $url
code-point|https://h/\x40user.name/a@@ b|U+0020 SPACE $url
code-point|https://h/\x40a(b)@@ c|U+0020 SPACE $url
code-point|data:text/html,@@<p>x</p>|U+003C LESS-THAN SIGN $url
code-point|data:image/svg+xml,@@<?xml?>|U+003C LESS-THAN SIGN $url
code-point|javascript:\$('a')@@ |U+0020 SPACE $url
code-point|javascript:f(@@{a})|U+007B LEFT CURLY BRACKET $url
code-point|https://h/?a@@[id]=1|U+005B LEFT SQUARE BRACKET $url
percent|https://h/@@%G1|U+0025 PERCENT SIGN has to be followed by two hex digits
percent|https://h/5@@%OFF|U+0025 PERCENT SIGN has to be followed by two hex digits
percent|https://h/100@@%discount|U+0025 PERCENT SIGN has to be followed by two hex digits
code-point|https://h/?\$filter=a@@ b|U+0020 SPACE $url
code-point|https://h/a@@<b c>|U+003C LESS-THAN SIGN $url
code-point|https://h/a@@<b>c|U+003C LESS-THAN SIGN $url
code-point|https://h/@@<1>|U+003C LESS-THAN SIGN $url
code-point|https://h/a@@ b\x40Abc|U+0020 SPACE $url
percent|https://h/@@%G%|U+0025 PERCENT SIGN has to be followed by two hex digits
ROWS
# Lines of HTML: a tag begins them, with an attribute or before the end of one. Against a base nothing else is wrong.
html='; this looks like HTML: check the links in it'
says <<ROWS
no-scheme|<p>text</p>|there is no scheme and no base$html
no-scheme|<a href="https://example.com/">|there is no scheme and no base$html
no-scheme|<li><a href="a">b</a></li>|there is no scheme and no base$html
no-scheme|</p>|there is no scheme and no base$html
no-scheme|<https://h/a b>|the link is in angle brackets; leave both of them out
no-scheme|<p|there is no scheme and no base
ROWS
says --base http://h/ <<ROWS
code-point|@@<p>text</p>|U+003C LESS-THAN SIGN $url$html
code-point|@@<p|U+003C LESS-THAN SIGN $url
ROWS

# Paths of Windows, drive letters, two schemes, a link after a space, text after a link, and escapes of JavaScript.
windows='; this looks like a path of Windows, whose URL begins with file:///'
schemes='; this has two schemes: write one of them'
later='; a link begins after a space: write it by itself'
text='; this looks like text after a link: write the link by itself'
says <<ROWS
code-point|C:@@\\\\a|U+005C REVERSE SOLIDUS $url$windows
code-point|D:/x@@ y/z.html|U+0020 SPACE $url$windows
code-point|file:///C@@\\0174/x|U+007C VERTICAL LINE $url; a drive letter is written with :
two-slashes|FILE:@@z\\0174?q|// has to follow this scheme; a drive letter is written with :
code-point|file:///C@@\\0174x|U+007C VERTICAL LINE $url
code-point|file:///1@@\\0174/x|U+007C VERTICAL LINE $url
code-point|file:///x/C@@\\0174/|U+007C VERTICAL LINE $url
code-point|http://h/@@\\0174/|U+007C VERTICAL LINE $url
first-segment-empty|http://http:/@@/x|the path begins with //$schemes
first-segment-empty|https://https/@@/example.com/x|the path begins with //$schemes
two-slashes|HTTP:@@https://x|// has to follow this scheme$schemes
code-point|https://a/@@ https://b/|U+0020 SPACE $url$later
code-point|https://a/?u=@@ https://b/|U+0020 SPACE $url$later
code-point|https://a/@@ www.example.com|U+0020 SPACE $url$later
code-point|URL:@@ https://example.com/ x|U+0020 SPACE $url$later
no-scheme|example.com https://b/|there is no scheme and no base$later
no-scheme|see http://b/|there is no scheme and no base$later
no-scheme| https://a/ https://b/|U+0020 SPACE is before the scheme; leave it out
code-point|https://a/@@ wwwb|U+0020 SPACE $url
code-point|https://shop.example/@@ and more|U+0020 SPACE $url$text
code-point|HTTP://h/a/@@  # home page.|U+0020 SPACE $url$text
code-point|https://h/a.html@@ (see below)|U+0020 SPACE $url$text
code-point|https://h/a.pdf@@ 3 MB|U+0020 SPACE $url$text
code-point|https://h/a.htm@@ b c|U+0020 SPACE $url$text
code-point|https://h/a.php@@ b c|U+0020 SPACE $url$text
host-domain|https://@@shop.example and more|U+0020 SPACE is not allowed in a domain$text
code-point|https://h/@@ more|U+0020 SPACE $url
code-point|https://h/@@  more |U+0020 SPACE $url
code-point|https://h/a@@ b c|U+0020 SPACE $url
code-point|https://h/@@ a b/c|U+0020 SPACE $url
code-point|https://h/@@ a b.html|U+0020 SPACE $url
code-point|https://h/node.js@@ a b|U+0020 SPACE $url
code-point|https://h/?u=a/@@ b c|U+0020 SPACE $url
code-point|https://h/#a.html@@ b c|U+0020 SPACE $url
code-point|foo://h/@@ b c|U+0020 SPACE $url
host-domain|https://@@exa mple com|U+0020 SPACE is not allowed in a domain
percent|https://h/@@%u00e9|U+0025 PERCENT SIGN has to be followed by two hex digits; %u isn't an escape of URLs: write those of UTF-8
percent|https://h/@@%ux|U+0025 PERCENT SIGN has to be followed by two hex digits
ROWS

# Where the sentence says which part is meant, no note follows that names all of it.
printf '%s\n' https://https//example.com/x 'URL: https://example.com/ x' 'https://h/ and more' >"$room/each"
expect 1 "each:1:15: error: the path begins with //$schemes [first-segment-empty]
https://https//example.com/x
              ^
each:2:5: error: U+0020 SPACE $url$later [code-point]
URL: https://example.com/ x
    ^
each:3:11: error: U+0020 SPACE $url$text [code-point]
https://h/ and more
          ^
note: the same URL, written validly, is https://h/%20and%20more
" 'urlcheck: 3 lines, 3 refused\n' lint --format caret each

# A host and its port in place of a scheme, and a scheme that is likely misspelled.
read_as='; what is before : is read as a scheme: write http:// before a host'
perhaps='; perhaps http or https is meant'
says <<ROWS
code-point|localhost:8080/a@@ b|U+0020 SPACE $url$read_as
code-point|LOCALHOST:80?a@@ b|U+0020 SPACE $url$read_as
code-point|example.com:8080/a@@ b|U+0020 SPACE $url$read_as
code-point|a-b.c1:80#@@ |U+0020 SPACE $url$read_as
code-point|localhost:@@ a|U+0020 SPACE $url
code-point|localhost:80x/a@@ b|U+0020 SPACE $url
code-point|urn:80/a@@ b|U+0020 SPACE $url
code-point|web+a.b:80/a@@ b|U+0020 SPACE $url
code-point|htp://example.com/a@@ b|U+0020 SPACE $url$perhaps
code-point|ttps://example.com/a@@ b|U+0020 SPACE $url$perhaps
code-point|hhtp://example.com/a@@ b|U+0020 SPACE $url$perhaps
host-code-point|htpps://a@@^/|U+005E CIRCUMFLEX ACCENT is not allowed in a host$perhaps
code-point|https://example.com/a@@ b|U+0020 SPACE $url
code-point|htp:a@@ b|U+0020 SPACE $url
code-point|hp://h/a@@ b|U+0020 SPACE $url
code-point|ht://h/a@@ b|U+0020 SPACE $url
code-point|ssh://h/a@@ b|U+0020 SPACE $url
code-point|sftp://h/a@@ b|U+0020 SPACE $url
ROWS

# What schemes require of a path; a query has no such rules.
tel='; write a number without spaces, as in tel:+1-555-0100'
says <<ROWS
code-point|tel:+1@@ 555 0100|U+0020 SPACE $url$tel
code-point|SMS:1@@ 2|U+0020 SPACE $url$tel
code-point|mailto:@@<a\x40h>|U+003C LESS-THAN SIGN $url; write addresses as in mailto:a\x40example.com
code-point|mailto:a@@ b\x40h|U+0020 SPACE $url; write addresses as in mailto:a\x40example.com
code-point|mailto:a\x40h?subject=a@@ b|U+0020 SPACE $url
code-point|sip:a@@ b|U+0020 SPACE $url; write an address as in sip:a\x40example.com
code-point|geo:1,@@ 2|U+0020 SPACE $url; write coordinates as in geo:48.2,16.3
code-point|sips:a@@ b\x40h|U+0020 SPACE $url; write an address as in sip:a\x40example.com
code-point|XMPP:a@@ b\x40h|U+0020 SPACE $url; write an address as in sip:a\x40example.com
code-point|tel:+1#a@@ b|U+0020 SPACE $url
code-point|urn:isbn:0@@ 451|U+0020 SPACE $url
code-point|about:@@ blank|U+0020 SPACE $url; write a page as in about:blank
code-point|view-source:https://a@@ b/|U+0020 SPACE $url; mend the link after view-source:
code-point|foo:a@@ b|U+0020 SPACE $url
ROWS

# Hosts that aren't domains: a code point, then a label, then Punycode. A profile is named where it accepts the whole link, and
# people choose such names: \`_\` and hyphens.
long=$(printf 'a%.0s' {1..64})
name=$(printf 'a%.0s' {1..63})
wide='; --profile wide allows it'
domain='is not allowed in a domain'
says <<ROWS
host-domain|http://@@x_y/|U+005F LOW LINE $domain$wide
host-domain|http://@@x_y!/|U+005F LOW LINE $domain
host-domain|http://@@x_y/ |U+005F LOW LINE $domain
host-domain|http://@@100%.example/|U+0025 PERCENT SIGN $domain
host-domain|http://@@*.example.com/|U+002A ASTERISK $domain
host-domain|http://@@example.com,/|U+002C COMMA $domain
host-domain|http://@@example.com,|U+002C COMMA $domain; leave it out
host-domain|http://@@example.com;|U+003B SEMICOLON $domain; leave it out
host-domain|http://@@example.com!|U+0021 EXCLAMATION MARK $domain; leave it out
host-domain|http://@@example.com>|U+003E GREATER-THAN SIGN $domain; leave it out
host-domain|http://@@example.com)|U+0029 RIGHT PARENTHESIS $domain; leave it out
host-domain|http://@@example.com]|U+005D RIGHT SQUARE BRACKET $domain; leave it out
host-domain|http://@@example.com"|U+0022 QUOTATION MARK $domain; leave it out
host-domain|http://@@example.com'|U+0027 APOSTROPHE $domain; leave it out
host-domain|http://@@example.com\x60|U+0060 GRAVE ACCENT $domain; leave it out
host-domain|http://@@a,b,|U+002C COMMA $domain
host-domain|http://@@example.com_|U+005F LOW LINE $domain$wide
host-domain|http://@@exa mple.com/|U+0020 SPACE $domain
host-domain|https://@@e.com">a</a>|U+0022 QUOTATION MARK $domain; this looks like HTML: check the link in it
host-domain|file://@@~/x|U+007E TILDE $domain: write the whole path after file://
host-domain|http://@@~/x|U+007E TILDE $domain
host-domain|http://@@example.com\xef\xbc\x8fa|U+FF0F \xef\xbc\x8f is in place of /
host-domain|http://@@h\xef\xbc\x9a80/|U+FF1A \xef\xbc\x9a is in place of :
host-domain|http://@@h\xef\xbc\x9fq|U+FF1F \xef\xbc\x9f is in place of ?
host-domain|http://@@h\xef\xbc\x83f|U+FF03 \xef\xbc\x83 is in place of #
host-domain|http://@@a\xef\xbd\x9e/|U+FF5E \xef\xbd\x9e is read as ~, which $domain
host-domain|http://@@a\xef\xbc\x81.b/|U+FF01 \xef\xbc\x81 is read as !, which $domain
host-domain|http://@@\xef\xbc\xa1..b/|a label of this domain is empty
host-domain|http://@@\xd7\x90a.com/|a label of this domain mixes right-to-left letters with Latin ones
host-domain|http://@@b.\xd9\xa0example/|a label of this domain mixes right-to-left letters with Latin ones
host-domain|http://@@\xd8\xa7\xd9\xb1\xd9\xaez.b/|a label of this domain mixes right-to-left letters with Latin ones
host-domain|http://@@a\xe2\x80\x8db.com/|U+200D, which nobody sees, is in this domain: leave it out
host-domain|http://@@a\xe2\x80\x8cb.com/|U+200C, which nobody sees, is in this domain: leave it out
host-domain|http://@@${long//a/\\xc3\\xa9}\xe2\x80\x8d.b/|U+200D, which nobody sees, is in this domain: leave it out
host-domain|http://@@\xd9\xaea.com/|a label of this domain mixes right-to-left letters with Latin ones
host-domain|http://@@\xd9\xb1a.com/|a label of this domain mixes right-to-left letters with Latin ones
host-domain|http://@@c\0174/|U+007C VERTICAL LINE $domain
host-domain|http://@@\xd7\x90.b..c/|a label of this domain is empty
host-domain|http://@@a!..b|U+0021 EXCLAMATION MARK $domain
host-domain|http://@@\xc3\xa9_/|U+005F LOW LINE $domain$wide
host-domain|http://@@a..b/|a label of this domain is empty
host-domain|http://@@a-..b|a label of this domain is empty
host-domain|http://@@\xc3\xa9..b:80|a label of this domain is empty
host-domain|http://@@.|a label of this domain is empty
host-domain|http://@@b.$long./|a label of this domain has more than 63 code points
host-domain|http://@@-a.example/|a label of this domain begins or ends with -$wide
host-domain|https://@@a-:80/|a label of this domain begins or ends with -$wide
host-domain|http://@@a-/ b|a label of this domain begins or ends with -
host-domain|http://@@ab--c.example/|a label of this domain has -- in its third and fourth place$wide
host-domain|http://@@XM--a#|a label of this domain has -- in its third and fourth place$wide
host-domain|http://@@a.-b.c/|a label of this domain begins or ends with -$wide
host-domain|http://@@-\xe3\x80\x82a/|the host that begins here is not a valid domain$wide
host-domain|http://@@xn--a/|xn--a is not the Punycode of a valid label
host-domain|http://@@www.XN--a.example:80/|XN--a is not the Punycode of a valid label
host-domain|http://@@xn--a.xn--b/|a label that begins with xn-- is not the Punycode of a valid one
host-domain|http://@@xn--$long/|a label of this domain has more than 63 code points
host-domain|http://@@$name.$name.$name.$name.a/|this domain has more than 253 code points
host-domain|http://@@$name.$name.$name.xn--a.${name:0:55}/|xn--a is not the Punycode of a valid label
host-domain|http://@@$name.$name.$name.${name:0:62}/|this domain has more than 253 code points
host-domain|http://@@\xc2\xad/|the host that begins here is not a valid domain
host-domain|file://@@C:/x|a drive letter is written after file:///, and not in place of a host
host-domain|file://@@c\\0174|a drive letter is written after file:///, and not in place of a host; a drive letter is written with :
host-domain|file://@@CC:/x|U+003A COLON $domain: a file URL has no port
host-domain|file://@@h:80/|U+003A COLON $domain: a file URL has no port
host-domain|http://@@u\x40h/|a URL string has no credentials: no user name, password or \x40 before its host; leave them out
host-code-point|ssh://git@@\x40h/x|a URL string has no credentials: no user name, password or \x40 before its host
ROWS
says --wide <<ROWS
host-domain|http://@@x_y!/|U+0021 EXCLAMATION MARK $domain
host-domain|http://@@-a..b/|a label of this domain is empty
host-domain|http://@@$long/|a label of this domain has more than 63 code points
host-domain|http://@@-a--b.xn--a-/|xn--a- is not the Punycode of a valid label
host-domain|http://@@$name.$name.$name.xn--a-.$name/|xn--a- is not the Punycode of a valid label
host-domain|http://@@\xd7\x90a.com/|a label of this domain mixes right-to-left letters with Latin ones
ROWS
says --profile parser <<ROWS
host-domain|http://@@x_y! z/|U+0020 SPACE $domain
host-domain|http://@@a..%20/|the host that begins here is not a valid domain
host-domain|http://@@%s/x|the host that begins here is not a valid domain$template
host-domain|http://@@\xd7\x90a.com/|a label of this domain mixes right-to-left letters with Latin ones
host-domain|http://@@\xd7\x90%31a/|the host that begins here is not a valid domain
host-domain|http://@@xn--$long-/|a label that begins with xn-- is not the Punycode of a valid one
ROWS

# Hosts that end in a number, and hosts in brackets. A long number isn't repeated.
says <<ROWS
host-number|http://@@192.168.010.1/|010 is octal to URL parsers: write no 0 before a number
host-number|http://@@0x7f.1/|0x7f is hex to URL parsers: write a decimal number
host-number|http://@@0X1F/|0X1F is hex to URL parsers: write a decimal number
host-number|http://@@192.168.1/|an IPv4 address has four numbers, and this one has 3
host-number|http://@@1/|an IPv4 address has four numbers, and this one has 1
host-number|http://@@1.2.3.4.5:80/|an IPv4 address has four numbers, and this one has 5
host-number|http://@@256.0.0.1/|256 is above 255, the largest number of an IPv4 address
host-number|http://@@1.2.3.1000?q|1000 is above 255, the largest number of an IPv4 address
host-number|http://@@1.2.3.4./|an IPv4 address has no full stop at its end
host-number|http://@@255.0.0.1./|an IPv4 address has no full stop at its end
host-number|http://@@1.2.3.9999999999999999/|9999999999999999 is above 255, the largest number of an IPv4 address
host-number|http://@@1.2.3.99999999999999999/|a number of this host is above 255, the largest number of an IPv4 address
host-number|http://@@a-b.0x1/|the host that begins here ends in a number, and is not an IPv4 address
host-number|http://@@a.b.1/|the host that begins here ends in a number, and is not an IPv4 address
host-number|http://@@\xef\xbc\x91.2.3.4/|the host that begins here ends in a number, and is not an IPv4 address
host-number|http://@@1.2.3.${long//aaaa/999}/|a number of this host is above 255, the largest number of an IPv4 address
host-ipv6|http://@@[::1/|] is missing after this IPv6 address
host-ipv6|http://@@[::1]x/|nothing but a port can follow the ] of a host
host-ipv6|http://@@[1::2::3]/|:: is twice in this IPv6 address
host-ipv6|http://@@[fe80::1%25eth0]/|an IPv6 address in a URL has no zone: leave out the % and what follows it
host-ipv6|foo://@@[::1%1]:80|an IPv6 address in a URL has no zone: leave out the % and what follows it
host-ipv6|http://@@[x%1]/|U+0078 LATIN SMALL LETTER X is not a hex digit of an IPv6 address
host-ipv6|http://@@[::g]/|U+0067 LATIN SMALL LETTER G is not a hex digit of an IPv6 address
host-ipv6|http://@@[a\x40h/|a URL string has no credentials: no user name, password or \x40 before its host; leave them out
host-ipv6|http://@@[1:2:3]/|an IPv6 address has eight pieces, and this one has 3
host-ipv6|http://@@[]/|an IPv6 address is missing in these brackets
host-ipv6|http://@@[1:2:3:4:5:6:7:8:9]/|an IPv6 address has eight pieces, and this one has 9
host-ipv6|http://@@[1:2:3::12345]/|a piece of this IPv6 address has more than 4 hex digits
host-ipv6|http://@@[12345::]/|a piece of this IPv6 address has more than 4 hex digits
host-ipv6|http://@@[1::2:3:4:5:6:7:8:9]/|an IPv6 address with :: has at most seven pieces, and this one has 9
host-ipv6|http://@@[1:2:3:4:5:6:7:1.2.3.4]/|an IPv6 address has eight pieces, and this one has 9
host-ipv6|http://@@[::ffff:1.2.3.256]/|this IPv6 address ends in no IPv4 address of four numbers up to 255
host-ipv6|http://@@[1.2.3.4::]/|this IPv6 address ends in no IPv4 address of four numbers up to 255
host-ipv6|http://@@[1.2.3.4]/|an IPv4 address is written without brackets
host-ipv6|http://@@[1:2:3:4:5:6:7:]/|a piece of this IPv6 address is empty
host-ipv6|http://@@[:1::2]/|a piece of this IPv6 address is empty
host-ipv6|http://@@[::1:]/|a piece of this IPv6 address is empty
host-ipv6|foo://@@[h/|] is missing after the [ of this host
host-missing|http://@@::1/|a host that is an IPv6 address is written in brackets
host-number|http://@@2001:db8::1/|a host that is an IPv6 address is written in brackets
port-digit|https://fe80:@@:1?x:80|a host that is an IPv6 address is written in brackets
host-domain|file://@@::1/x|a host that is an IPv6 address is written in brackets
port-digit|http://h:@@:1/|U+003A COLON is not allowed in a port
ROWS
says --profile parser <<ROWS
host-number|http://@@256/|256 is above 255, the largest number of an IPv4 address
host-number|http://@@1.2.3.4.5/|an IPv4 address has four numbers, and this one has 5
ROWS

# What is left: ports, slashes, drive letters, code points and escapes.
says <<ROWS
port-digit|http://h:8@@x/|U+0078 LATIN SMALL LETTER X is not allowed in a port
port-range|http://h:@@65536/|the port that begins here is above 65535
host-missing|http://@@/|a host is missing here
two-slashes|http:/@@h|// has to follow this scheme
host-code-point|foo://@@^/|U+005E CIRCUMFLEX ACCENT is not allowed in a host
first-segment-empty|https://h/@@/a|the path begins with //; write one slash, or use --profile wide
first-segment-empty|https://h/@@/a b|the path begins with //; write one slash
drive-after-host|file://h@@/C:/x|the path after this host begins with a drive letter; --profile parser allows it
drive-after-host|file://h@@/C:/x^|the path after this host begins with a drive letter
percent|http://h/@@%4|U+0025 PERCENT SIGN has to be followed by two hex digits; this escape is cut off
code-point|http://h/@@\xef\xbf\xbf|U+FFFF <noncharacter> $url
code-point|http://h/@@\xef\xbf\xbe|U+FFFE <noncharacter> $url
code-point|http://h/@@\xef\xb7\x90|U+FDD0 <noncharacter> $url
code-point|http://h/@@\xef\xb7\xaf|U+FDEF <noncharacter> $url
code-point|http://h/@@\xf4\x8f\xbf\xbf|U+10FFFF <noncharacter> $url
code-point|http://h/@@\xc2\x85|U+0085 $url
code-point|http://h/@@\x1b[2J|U+001B ESCAPE $url
ROWS
says --base mailto:a <<'ROWS'
opaque-base|b|there is no scheme, the base has an opaque path, and the text isn't # and a fragment
ROWS

# Each ASCII code point that a port can't have, and that ends none, by its name in the Unicode Character Database.
python3 - "$room/list" <<'PYTHON'
import sys
points = [chr(number) for number in range(128) if chr(number) not in "\n/?#@0123456789"]
open(sys.argv[1], "wb").write("".join(f"http://h:1{point}/\n" for point in points).encode())
PYTHON
"$program" lint --quiet --format json "$room/list" >"$room/out" 2>"$room/err"
ends_with 1 $? "urlcheck: $room/list isn't text\\n" 'code points of a port'
python3 - "$room/out" >"$room/wrong" <<'PYTHON' || fail "code points of a port: $(cat "$room/wrong")"
import json, re, sys, unicodedata
found = [json.loads(line) for line in open(sys.argv[1], encoding="utf-8")]
said = [re.match("U[+]([0-9A-F]{4}) (.*) is not allowed in a port(; |$)", one["message"]) for one in found]
wrong = [one for one, m in zip(found, said) if not (m and unicodedata.lookup(m[2]) == one["text"][10] == chr(int(m[1], 16)))]
print(len(found), *wrong, sep="\n")
sys.exit(bool(wrong) or len(found) != 113)
PYTHON

# So is each that a port can have or that ends one, in place of a scheme's colon.
python3 - "$room/list" <<'PYTHON'
import sys
open(sys.argv[1], "w", encoding="utf-8").write("".join(f"http{point}//e.com\n" for point in "0123456789?#@"))
PYTHON
"$program" lint --quiet --format json "$room/list" >"$room/out" 2>"$room/err"
ends_with 1 $? '' "code points in place of a scheme's colon"
python3 - "$room/out" >"$room/wrong" <<'PYTHON' || fail "code points in place of a scheme's colon: $(cat "$room/wrong")"
import json, sys, unicodedata
found = [json.loads(line) for line in open(sys.argv[1], encoding="utf-8")]
said = "there is no scheme and no base; U+{:04X} {} is in place of a colon"
wrong = [it for it in found if it["message"] != said.format(ord(it["text"][4]), unicodedata.name(it["text"][4]))]
print(len(found), *wrong, sep="\n")
sys.exit(bool(wrong) or len(found) != 13)
PYTHON

# What is said of each of several violations: credentials end with their \`@\`, and an address without brackets is one in each.
printf '%s\n' 'foo://^@^/' 'http://::1/ ' >"$room/each"
credentials='a URL string has no credentials: no user name, password or @ before its host'
bare='a host that is an IPv6 address is written in brackets'
expect 1 "each:1:7: error: $credentials [host-code-point]
each:1:8: error: $credentials [host-code-point]
each:1:9: error: U+005E CIRCUMFLEX ACCENT is not allowed in a host [host-code-point]
each:2:8: error: $bare [host-missing]
each:2:9: error: $bare [port-digit]
each:2:12: error: U+0020 SPACE $url [code-point]
" 'urlcheck: 2 lines, 2 refused\n' lint --all each

# A path that only the parser's profile accepts, since it reads this host decoded.
printf '%s\n' 'http://a%2Db//x' >"$room/each"
expect 1 "each:1:8: error: U+0025 PERCENT SIGN is not allowed in a domain [host-domain]
each:1:14: error: the path begins with //; write one slash, or use --profile parser [first-segment-empty]
" 'urlcheck: 1 line, 1 refused\n' lint --all each

# A code point of which nothing is seen before a link, only by its number; a private one is seen.
for point in 00A0 00AD 1680 180E 2000 200A 200B 200D 202F 205F 2060 206F 3000 FFF9 FFFB E0001 E007F; do
    python3 -c 'import sys; open(sys.argv[2], "wb").write((chr(int(sys.argv[1], 16)) + "https://a/\n").encode())' "$point" "$room/each"
    expect 1 "each:1:1: error: U+$point is before the scheme; leave it out [no-scheme]\n" 'urlcheck: 1 line, 1 refused\n' lint each
done
for point in 1681 200E0 2070 FDF0 FFFC E0080; do
    python3 -c 'import sys; open(sys.argv[2], "wb").write((chr(int(sys.argv[1], 16)) + "https://a/\n").encode())' "$point" "$room/each"
    expect 1 'each:1:1: error: there is no scheme and no base [no-scheme]\n' 'urlcheck: 1 line, 1 refused\n' lint each
done

# Offered: what says the same in another writing, where nothing shows that something else was meant.
offers True <<'ROWS'
https://h/a b
https://h/100%
https://h/5%off
http:/h/a
http:\\h\a
http://a%2Db/
https://h/?q={"a":1}
https://h/?a[id]=1
https://h/?$filter=a b
https://1.2.3.4/a b
https://h:80/a|b
mailto:a@h?subject=a b
 mailto:a@h
https://x.org/100%sure
https://h/5%sale
https://h/?titles=NASA|ESA|JAXA
https://h/@user.name/a b
javascript:f({a})
javascript:f($('a') )
data:text/html,<p>x</p>
https://h/a<b>c
foo:a b
http://https/a b
http://http:80/a b
file:///http://x y
https://h/.//a b
ab:\x
x:y z
foo:///C|/x
magnet:?xt=urn:btih:ab&dn=a b
https://h/a b c
https://h/?q=node.js a b
https://h/?xt=a b
https://h/x%G
https://h/@@X b
ROWS
# Not offered: templates, paths of Windows, two schemes, a link or text after a space, addresses that aren't in the text, paths by rules
# of a scheme, topics of magnet links, paths kept by a segment `.`, drive letters, hosts in place of a scheme, misspelled schemes.
offers False <<'ROWS'
https://h/{id}
https://h/%(id)s
https://h/%d
https://h/<id>
https://h/v<id>/x
https://h/[ID]
https://h/$VAR/a b
https://h/%PUBLIC_URL%/a
D:/x y
C:\x
https://http//x y/
https://a/ https://b/
https://a/ www.b.example/
https://shop.example/ and more
https://192.168.010.1/
https://192.168.1/
http://1/
http://0x7f.1/a b
mailto:<a@h>
mailto:a b@h
tel:+1 555
sms:1 2
sip:a b
sips:a b@h
xmpp:a b@h
geo:1, 2
about: blank
view-source:https://a b/
https://h/%u00e9
https://h/Caf%C3%A
https://h/%D0%9F%D0%B
http://0x7f.1:8080/a b
MAILTO:a b@h
urn:isbn: 0451450523
magnet:?xt=urn:btih:a b
https://h//a
file://h/C:/x
file:///C|/x
localhost:8080/a b
htp://example.com/a b
https://YOUR_DOMAIN/a b
URL: https://e.com/
ROWS
# Against a base a line of HTML is read as a path; what begins with `<` alone isn't one.
offers False --base http://h/ <<'ROWS'
<p>text</p>
<a href="b">
ROWS
offers True --base http://h/ <<'ROWS'
<p
ROWS

# Credentials before a port; an `@` after the authority's end isn't one.
says <<ROWS
port-digit|http://user:@@pw\x40h/|$credentials; leave them out
host-domain|http://@@x_y/\x40|U+005F LOW LINE $domain$wide
host-code-point|foo://a@@^b?\x40|U+005E CIRCUMFLEX ACCENT is not allowed in a host
port-digit|http://h:8@@x#\x40|U+0078 LATIN SMALL LETTER X is not allowed in a port
ROWS

all_cases 524
