"""Errors of the API: each code of MediaWiki's that comes here, with its text, and the wiki's own errors in these."""

# What a code says; words in braces are filled in.
TEXTS = {
    "articleexists": "The article you tried to create has been created already.",
    "assertanonfailed": "You are no longer logged out, so the action could not be completed.",
    "assertbotfailed": 'You do not have the "bot" right, so the action could not be completed.',
    "assertnameduserfailed": 'You are no longer logged in as "{value}", so the action could not be completed.',
    "assertuserfailed": "You are no longer logged in, so the action could not be completed.",
    "badcontinue": "Invalid continue param. You should pass the original value returned by the previous query.",
    "badgenerator": 'Unknown "generator={value}".',
    "badid": 'No revision was found for parameter "{name}".',
    "badinteger": 'Invalid value "{value}" for integer parameter "{name}".',
    "badmd5": "The supplied MD5 hash was incorrect.",
    "badtimestamp": 'Invalid value "{value}" for timestamp parameter "{name}".',
    "badtoken": "Invalid CSRF token.",
    "badvalue": 'Unrecognized value for parameter "{name}": {value}.',
    "contenttoobig": "The content you supplied exceeds the article size limit of 2,048 kibibytes.",
    "editconflict": "Edit conflict.",
    "invalidcategory": "The category name you entered is not valid.",
    "invalidparammix": "The parameters {names} can not be used together.",
    "invalidtitle": 'Bad title "{value}".',
    "missingparam": 'The "{name}" parameter must be set.',
    "missingtitle": "The page you specified doesn't exist.",
    "mustbeposted": 'The "{value}" module requires a POST request.',
    "mustpostparams": "The following parameter was found in the query string, but must be in the POST body: {value}.",
    "nosuchpageid": "There is no page with ID {value}.",
    "nosuchrevid": "There is no revision with ID {value}.",
    "outofrange": '"{name}" may not be {how} {bound}.',
    "pagecannotexist": "Namespace doesn't allow actual pages.",
    "pagedeleted": "The page has been deleted since you fetched its timestamp.",
    "readonly": "The wiki is currently in read-only mode.",
    "revwrongpage": "r{value} is not a revision of {title}.",
    "toomanyvalues": 'Too many values supplied for parameter "{name}". The limit is {bound}.',
    "undofailure": "The edit could not be undone due to conflicting intermediate edits.",
}


class ApiError(Exception):
    """An error that is told: its code, its text, and further keys."""

    def __init__(self, code, info, **more):
        super().__init__(info)
        self.code, self.info, self.more = code, info, more


def error(code, more=None, **words):
    """The error of a code of the table."""
    return ApiError(code, TEXTS[code].format(**words), **(more or {}))


def unknown(name, why):
    """What MediaWiki has and this wiki hasn't, by the name of the parameter that asks for it."""
    return ApiError(f"unknown_{name}", why)


class WikiError(Exception):
    """An error that the wiki answered."""

    def __init__(self, answered):
        super().__init__(answered["code"])
        self.code, self.answered = answered["code"], answered


FULL = {
    "pages": "it has as many pages as it can have", "revisions": "it has as many revisions as it can have",
    "text": "it has as much text as it can have",
}
FAULTS = {"nomemory": "NoMemory", "storefault": "StoreFault"}


def told(it, title=""):
    """An error of the wiki's as MediaWiki tells it; `title` is the one that was asked about."""
    if it.code in ("articleexists", "contenttoobig", "editconflict", "invalidcategory", "missingtitle"):
        return error(it.code)
    if it.code == "invalidtitle":
        return error("invalidtitle", value=title)
    if it.code in ("wikifull", "journalfull"):
        why = FULL.get(it.answered.get("limit"), "its journal is full until it is started again")
        return error("readonly", {"readonlyreason": f"The wiki takes no more changes: {why}."})
    if it.code == "readonly":
        return error("readonly", {"readonlyreason": "This is a replica: edits go to the wiki that it follows."})
    return ApiError(f"internal_api_error_{FAULTS.get(it.code, 'Wiki')}", f"The wiki answered {it.code}: {it.answered.get('info')}")
