"""The states of `handlebars_html` (specs/Tokenizer.antt, specs/Html.antt and what they stand on), in Python. A state is a pair:
a tuple that begins with the name of the tokenizer's state, and the context, whether it is within `noscript` and where a script may
be read as markup."""

WHITE = frozenset(b" \n\t\r\f")
TEXT_ELEMENTS = {b"title", b"textarea"}
RAW_TEXT_ELEMENTS = {b"style", b"xmp", b"iframe", b"noembed", b"noframes"}
INTEGRATION_POINTS = {b"foreignobject", b"desc"}
FOREIGN_ELEMENTS = {b"math", b"frameset"}
ACTIVE_ELEMENTS = set(b"""script style frame object embed applet base param set animate animatetransform animatemotion use
    portal""".split())
LOADING_ELEMENTS = {b"link", b"iframe"}
HARMLESS_ATTRIBUTES = set(b"""abbr accept accesskey align alt autocomplete autofocus bgcolor border checked class color cols colspan coords datetime
    dir disabled download draggable enterkeyhint for form headers height hidden high hreflang id inputmode itemprop
    kind label lang list loading low max maxlength media min minlength multiple name nonce open optimum pattern
    placeholder readonly rel required reversed role rows rowspan scope selected size span spellcheck srclang start
    step summary tabindex title translate type valign value width wrap""".split())
DRAWING_ATTRIBUTES = set(b"cx cy d dx dy pathlength points r rx ry viewbox x x1 x2 y y1 y2".split())
PASSIVE_ATTRIBUTES = set(b"class dir id lang nonce title".split())
SHOWING_ELEMENTS = set(b"img source video audio".split())
SHOWN_ATTRIBUTES = {b"src", b"poster"}
ADDRESS_ATTRIBUTES = set(b"href src action formaction cite poster background longdesc".split())
LOADED_ATTRIBUTES = {b"href", b"src"}
FOLLOWED_SCHEMES = set(b"http https mailto tel ftp sms".split())
LOADED_SCHEMES = {b"http", b"https"}

COMMENTS = {"comment_start", "comment_start_dash", "in_comment", "comment_dash", "comment_end", "comment_bang", "comment_unclear",
            "comment_unclear_dash"}
IN_DATA, LATE, STUCK = ("in_data",), ("late",), ("stuck",)
BEGINNING = (IN_DATA, (False, "outside"))


def lower(byte):
    return byte + 32 if 65 <= byte <= 90 else byte


def is_letter(byte):
    return 97 <= lower(byte) <= 122


# ---- values of attributes


def is_unclear(byte):
    return byte <= 32 or byte == 38


def step_followed(text, byte):
    if not text and byte <= 32:
        return ("followed", text)
    if byte in b"/?#":
        return ("harmless",)
    if byte == 58:
        return ("harmless",) if text in FOLLOWED_SCHEMES else ("forbidden",)
    return ("forbidden",) if is_unclear(byte) else ("followed", text + bytes([lower(byte)]))


def step_loaded(text, byte):
    if not text and byte <= 32:
        return ("loaded", text)
    if byte in b"/\\":
        return ("harmless",) if text else ("loaded_slash",)
    if byte in b"?#":
        return ("harmless",)
    if byte == 58:
        return ("loaded_authority",) if text in LOADED_SCHEMES else ("forbidden",)
    return ("forbidden",) if is_unclear(byte) else ("loaded", text + bytes([lower(byte)]))


def step_value(value, byte):
    kind = value[0]
    if kind == "followed":
        return step_followed(value[1], byte)
    if kind == "loaded":
        return step_loaded(value[1], byte)
    if kind == "loaded_slash":
        return ("loaded_authority",) if byte in b"/\\" else ("forbidden",) if is_unclear(byte) else ("harmless",)
    if kind == "loaded_authority":
        if byte in b"/\\":
            return value
        return ("forbidden",) if is_unclear(byte) or byte in b"?#" else ("loaded_host",)
    if kind == "loaded_host":
        return ("harmless",) if byte in b"/\\?#" else ("forbidden",) if is_unclear(byte) else value
    return value


# ---- tags


def content_of(name):
    if name in TEXT_ELEMENTS:
        return ("inner_text", True, name)
    if name in RAW_TEXT_ELEMENTS:
        return ("inner_text", False, name)
    if name in INTEGRATION_POINTS:
        return ("html_in_svg",)
    if name in FOREIGN_ELEMENTS:
        return ("foreign_markup",)
    special = {b"script": "script_text", b"svg": "svg_begins", b"noscript": "noscript_begins", b"plaintext": "plaintext"}
    return (special.get(name, "markup"),)


def attributes_of(name):
    if name in ACTIVE_ELEMENTS:
        return "of_active"
    if name in LOADING_ELEMENTS:
        return "of_loading"
    if name in SHOWING_ELEMENTS:
        return "of_showing"
    return "of_meta" if name == b"meta" else "common"


def tag_of(ends, name):
    if ends:
        return (({b"noscript": "noscript_ends", b"svg": "svg_ends"}.get(name, "markup"),), "of_active")
    return (content_of(name), attributes_of(name))


def is_custom(name):
    return name.startswith((b"data-", b"aria-"))


def is_harmless(name):
    return name in HARMLESS_ATTRIBUTES or name in DRAWING_ATTRIBUTES or is_custom(name)


def first_value(attributes, name):
    if attributes == "meta_pragma":
        return ("forbidden",)
    if attributes == "of_active":
        return ("harmless",) if name in PASSIVE_ATTRIBUTES or is_custom(name) else ("forbidden",)
    if attributes in ("of_meta", "meta_content"):
        return ("harmless",) if name == b"content" else ("forbidden",)
    if attributes == "of_loading":
        if name in LOADED_ATTRIBUTES:
            return ("loaded", b"")
        return ("harmless",) if name != b"rel" and is_harmless(name) else ("forbidden",)
    if attributes == "of_showing" and name in SHOWN_ATTRIBUTES or is_harmless(name):
        return ("harmless",)
    return ("followed", b"") if name in ADDRESS_ATTRIBUTES else ("forbidden",)


def beside(attributes, name):
    if attributes != "of_meta":
        return attributes
    return {b"content": "meta_content", b"http-equiv": "meta_pragma"}.get(name, "of_meta")


def begin_value(tag, name):
    if tag[1] == "meta_content" and name == b"http-equiv":
        return LATE
    return ("before_value", (tag[0], beside(tag[1], name)), first_value(tag[1], name))


def step_attribute(tag, byte):
    return ("before_attribute", tag) if byte in WHITE or byte == 47 else ("attribute_name", tag, bytes([lower(byte)]))


# ---- the tokenizer


def by_dash(byte, dash, greater, other):
    return (dash if byte == 45 else greater if byte == 62 else other,)


def step_script(byte):
    return ("script_tag_open",) if byte == 60 else ("in_script",)


def next_plain(kind, byte):
    """the state after one with nothing in it"""
    if kind == "in_data":
        return ("tag_open",) if byte == 60 else IN_DATA
    if kind == "tag_open":
        if is_letter(byte):
            return ("tag_name", False, bytes([lower(byte)]))
        return ({60: "tag_open", 33: "declaration", 47: "end_tag_open", 63: "bogus"}.get(byte, "in_data"),)
    if kind == "end_tag_open":
        return ("tag_name", True, bytes([lower(byte)])) if is_letter(byte) else IN_DATA if byte == 62 else ("bogus",)
    if kind == "declaration":
        return STUCK if byte == 91 else by_dash(byte, "declaration_dash", "in_data", "bogus")
    if kind == "declaration_dash":
        return by_dash(byte, "comment_start", "in_data", "bogus")
    if kind == "bogus":
        return IN_DATA if byte == 62 else ("bogus",)
    if kind == "comment_start":
        return by_dash(byte, "comment_start_dash", "in_data", "in_comment")
    if kind == "comment_start_dash":
        return by_dash(byte, "comment_end", "in_data", "in_comment")
    if kind == "in_comment":
        return by_dash(byte, "comment_dash", "in_comment", "in_comment")
    if kind == "comment_dash":
        return by_dash(byte, "comment_end", "in_comment", "in_comment")
    if kind == "comment_end":
        return ("comment_bang",) if byte == 33 else by_dash(byte, "comment_end", "in_data", "in_comment")
    if kind == "comment_bang":
        return by_dash(byte, "comment_dash", "in_data", "in_comment")
    if kind == "comment_unclear":
        return ("comment_unclear",) if byte == 33 else by_dash(byte, "comment_unclear_dash", "stuck", "in_comment")
    if kind == "comment_unclear_dash":
        return ("comment_unclear",) if byte == 33 else by_dash(byte, "comment_end", "stuck", "in_comment")
    if kind == "in_script":
        return step_script(byte)
    if kind == "script_tag_open":
        return ("script_end_name", b"script") if byte == 47 else STUCK if byte == 33 else step_script(byte)
    if kind == "text_end":
        return ("text_end",) if byte in WHITE else IN_DATA if byte == 62 else STUCK
    return LATE if kind == "late" else STUCK


def next_state(state, byte):
    kind = state[0]
    if kind == "tag_name":
        if byte in WHITE or byte == 47:
            return ("before_attribute", tag_of(state[1], state[2]))
        return ("tag_name", state[1], state[2] + bytes([lower(byte)]))
    if kind == "before_attribute":
        return step_attribute(state[1], byte)
    if kind == "attribute_name":
        if byte in WHITE:
            return ("after_attribute", state[1], state[2])
        if byte == 47:
            return ("before_attribute", state[1])
        return begin_value(state[1], state[2]) if byte == 61 else ("attribute_name", state[1], state[2] + bytes([lower(byte)]))
    if kind == "after_attribute":
        if byte in WHITE:
            return state
        return begin_value(state[1], state[2]) if byte == 61 else step_attribute(state[1], byte)
    if kind == "before_value":
        if byte in WHITE:
            return state
        return ("quoted", byte == 34, state[1], state[2]) if byte in (34, 39) else ("unquoted", state[1])
    if kind == "quoted":
        if byte == (34 if state[1] else 39):
            return ("before_attribute", state[2])
        return ("quoted", state[1], state[2], step_value(state[3], byte))
    if kind == "unquoted":
        return ("before_attribute", state[1]) if byte in WHITE else state
    if kind == "in_text":
        return ("text_tag_open", state[1], state[2]) if byte == 60 else state
    if kind == "text_tag_open":
        if byte == 60:
            return state
        if byte == 47:
            return ("text_end_name", state[2])
        return STUCK if byte in b"!?" or is_letter(byte) else ("in_text", state[1], state[2])
    if kind == "text_end_name":
        if not state[1]:
            return ("text_end",) if byte in WHITE else IN_DATA if byte == 62 else STUCK
        return ("text_end_name", state[1][1:]) if byte not in WHITE and lower(byte) == state[1][0] else STUCK
    if kind == "script_end_name":
        if not state[1]:
            return ("text_end",) if byte in WHITE else IN_DATA if byte == 62 else STUCK if byte == 47 else step_script(byte)
        if byte in WHITE:
            return ("in_script",)
        return ("script_end_name", state[1][1:]) if lower(byte) == state[1][0] else step_script(byte)
    return next_plain(kind, byte)


# ---- HTML


def open_tag(state):
    if state[0] == "tag_name":
        return tag_of(state[1], state[2])
    if state[0] in ("before_attribute", "attribute_name", "after_attribute", "before_value", "unquoted"):
        return state[1]
    return None


def enter(content, context):
    within, foreign = context
    kind = content[0]
    if kind == "inner_text":
        return (("in_text", content[1], content[2]), context)
    if kind == "script_text":
        return (("in_text", False, b"script") if within or foreign != "outside" else ("in_script",), context)
    if kind == "svg_begins":
        return (IN_DATA, (within, "in_svg" if foreign == "outside" else "anywhere"))
    if kind == "svg_ends":
        return (IN_DATA, (within, "anywhere" if foreign == "anywhere" else "outside"))
    if kind == "html_in_svg":
        return (IN_DATA, (within, "outside" if foreign == "outside" else "anywhere"))
    if kind == "foreign_markup":
        return (IN_DATA, (within, "anywhere"))
    if kind == "noscript_begins":
        return (STUCK if within else IN_DATA, (True, foreign))
    if kind == "noscript_ends":
        return (IN_DATA, (False, foreign))
    return (STUCK if kind == "plaintext" else IN_DATA, context)


def step(html, byte):
    state, context = html
    if byte == 62:
        tag = open_tag(state)
        if tag:
            return enter(tag[0], context)
    if byte == 60 and context[0] and state[0] not in ("in_data", "tag_open", "in_text", "text_tag_open", "late"):
        return (STUCK, context)
    return (next_state(state, byte), context)


def after(html, text):
    for byte in text:
        html = step(html, byte)
    return html


def is_safe(html):
    state = html[0]
    if state[0] in COMMENTS or state[0] == "in_data":
        return True
    return state[0] == "in_text" and state[1] or state[0] == "quoted" and state[3] == ("harmless",)


def after_data(html):
    return (("comment_unclear",), html[1]) if html[0][0] in COMMENTS else html
