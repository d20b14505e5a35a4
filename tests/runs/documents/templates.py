"""Links that a program is to fill in, in the syntaxes of thirty and more of them: nothing is written in their place,
even if that is asked for, and nothing is offered. And a few that look like some and aren't."""

from typing import Dict, Mapping

from cases import Case

SYNTAXES = {
    "Jinja, Liquid, Handlebars": "/x?id={{ user id }}",
    "Jinja's tags": "{% url 'a b' %}",
    "Jinja's comments": "{# a b #}/c",
    "Mustache without escapes": "{{{ a b }}}",
    "Blade without escapes": "{!! $a b !!}",
    "Smarty": "{$page.url b}/c",
    "URI templates": "http://h/{user name}",
    "Java, Mako, shells": "http://h/${user name}",
    "Velocity": "http://h/$!{user name}",
    "Thymeleaf": "@{/order(id=${o.id} , b=1)}",
    "Pug, Ruby": "/x/#{user name}",
    "ERB, EJS, JSP": "<%= url a %>",
    "ERB's code": "<% if a %>/b<% end %>",
    "PHP": "/x?id=<?php echo $id; ?>",
    "PHP's short tags": "/x?id=<?= $id ?>",
    "server-side includes": "/x?id=<!--#echo var=X -->",
    "FreeMarker": "<#if a>/b c</#if>",
    "JSP's tags": "<c:url value=/a></c:url>",
    "HTML Template": "<TMPL_VAR NAME=URL>/a",
    "a name in angle brackets": "http://h/<user_name>/a b",
    "Template Toolkit": "[% page.url %]/b",
    "two square brackets": "http://h/[[ url ]]",
    "a name in square brackets": "http://h/[NAME]/a b",
    "Mailchimp": "http://h/*|UNSUB|*",
    "a name between bars": "http://h/|DATE|/b",
    "a name between two at signs": "http://h/@@X Y@@",
    "a name between at signs": "@URL@/a b",
    "a name between two percent signs": "%%PUBLIC URL%%/a",
    "a name between percent signs": "%URL%/a b",
    "Razor": "@Url.Action('a', 'b c')",
    "make": "$(base)/x y",
    "a shell's variable": "$BASE_URL/a b",
    "printf": "http://h/%s/a b",
    "Python's mapping": "http://h/%(user)s/a b",
    "Ruby's mapping": "http://h/%{user}/a b",
    "code": "javascript:go({{ id }}, 'a b')",
    "data": "data:text/html,{{ a b }}",
}
"""A link of each, which isn't valid."""

NONE = {
    "an escape that was cut off": "http://h/%D0%9F%D0%B",
    "a percent sign before a word": "http://h/100%sure",
    "a percent sign before a space": "http://h/100% sale",
}
"""Wrong links that are no templates."""


def files_of(links: Mapping[str, str]) -> Dict[str, str]:
    """A page for each of these links."""
    return {"{}.html".format(name): '<a href="{}">x</a>\n'.format(link) for name, link in links.items()}


ALL = r"{} documents, {} links, {} refused".format(*[len(SYNTAXES)] * 3)

CASES = (
    Case("templates aren't written", files_of(SYNTAXES), "ud --fix .", 1, err=(ALL, r"\b0 fixed")),
    Case(
        "templates aren't written if other URLs may be",
        files_of(SYNTAXES),
        "ud --fix --unsafe-fixes .",
        1,
        err=(ALL, r"\b0 fixed"),
    ),
    Case(
        "no difference is shown of templates",
        files_of(SYNTAXES),
        "ud --diff --unsafe-fixes .",
        1,
        out=("!.",),
        err=(ALL,),
    ),
    Case(
        "nothing is offered for templates",
        files_of(SYNTAXES),
        "ud --format json .",
        1,
        out=(r"!\"offered\": ?true",),
        err=(ALL,),
    ),
    Case(
        "no help says what to write for templates",
        files_of(SYNTAXES),
        "ud --format caret .",
        1,
        out=("!^help: write",),
        err=(ALL,),
    ),
    Case(
        "what only looks like a template isn't called one",
        files_of(NONE),
        "ud --format caret .",
        1,
        out=("!template",),
        err=("3 links, 3 refused",),
    ),
)
