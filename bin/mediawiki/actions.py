"""The actions, and what goes for all of them: the main parameters, warnings and errors."""
import time

from mediawiki import expanding, query, saving
from mediawiki.asked import Asked
from mediawiki.errors import ApiError, WikiError, error, told, unknown
from mediawiki.parameters import choice, flag, lost, number, text
from mediawiki.shapes import written
from moving import iso_of

ENGLISH = "this wiki answers in English alone"
TABLE = {
    "action": text(), "format": text("json"), "formatversion": choice("1", "2", "latest", default="1"), "maxlag": number(), "requestid": text(),
    "assert": choice("anon", "user", "bot"), "assertuser": text(), "curtimestamp": flag(), "servedby": flag(), "utf8": flag(), "ascii": flag(),
    "smaxage": number(), "maxage": number(), "origin": text(), "errorformat": choice("bc", default="bc"), "responselanginfo": flag(),
    "callback": text(), "uselang": text(), "variant": lost(ENGLISH), "errorlang": text(), "errorsuselocal": flag(),
}
WITHOUT_ACCOUNTS = "This wiki has no accounts: nobody can log in, and whoever reaches it may read and edit it. Leave the login out."
# MediaWiki's actions, of which one that isn't here is told by name.
MEDIAWIKIS = set(
    "abusefiltercheckmatch acquiretempusername block changeauthenticationdata changecontentmodel checktoken clearhasmsg compare createaccount"
    " cspreport emailuser feedcontributions feedrecentchanges feedwatchlist filerevert help imagerotate import linkaccount logout"
    " managetags mergehistory move opensearch options paraminfo patrol protect purge removeauthenticationdata resetpassword"
    " revisiondelete rollback rsd setnotificationtimestamp setpagelanguage stashedit tag tokens unblock undelete unlinkaccount upload"
    " userrights validatepassword watch".split()
)


def login(asked):
    """No name is right."""
    asked.used.update(("lgname", "lgpassword", "lgdomain", "lgtoken"))
    return {"login": {"result": "Failed", "reason": WITHOUT_ACCOUNTS}}


def clientlogin(asked):
    asked.used.update(it for it in asked.parameters if it.startswith("login") or it in ("username", "password", "rememberMe", "OATHToken"))
    return {"clientlogin": {"status": "FAIL", "message": WITHOUT_ACCOUNTS, "messagecode": "noaccounts"}}


ACTIONS = {
    "query": query.query, "edit": saving.edit, "delete": saving.delete, "parse": expanding.parse, "expandtemplates": expanding.expandtemplates,
    "login": login, "clientlogin": clientlogin,
}
# Of a save it is no matter that the wiki has changed meanwhile: it names its base.
READS = {"query", "parse", "expandtemplates"}


def action_of(name):
    """The function of an action."""
    if name in ACTIONS:
        return ACTIONS[name]
    if name is None:
        raise error("missingparam", name="action")
    if name in MEDIAWIKIS:
        raise unknown("action", f'Unrecognized value for parameter "action": {name}. It is one of MediaWiki\'s that this wiki hasn\'t.')
    raise error("badvalue", name="action", value=name)


def check_main(given):
    """Refuses what nobody here can be, and a wiki that may lag less than not at all."""
    if given["format"] not in ("json", "jsonfm"):
        raise error("badvalue", name="format", value=given["format"])
    if given["assert"] in ("user", "bot"):
        raise error(f"assert{given['assert']}failed")
    if given["assertuser"] is not None:
        raise error("assertnameduserfailed", value=given["assertuser"])
    if given["maxlag"] is not None and given["maxlag"] < 0:
        raise ApiError("maxlag", "Waiting for a database server: 0 seconds lagged.", lag=0, type="db")
    if given["callback"] is not None:
        raise unknown("callback", 'This wiki doesn\'t know the parameter "callback": replies are JSON alone.')


class Reply:
    """A reply: its bytes, and the code of its error."""

    def __init__(self, data, code=None):
        self.data, self.code = data, code

    @property
    def headers(self):
        found = {"MediaWiki-API-Error": self.code} if self.code else {}
        return {**found, **({"Retry-After": "5", "X-Database-Lag": "0"} if self.code == "maxlag" else {})}


def fault():
    """The reply where this program has a fault."""
    told_of = {"code": "internal_api_error_Fault", "info": "This program has a fault, which it told on its standard error. If this was a save, read the page first: it may have been made."}
    return Reply(written({"error": told_of}, 2, True), told_of["code"])


def answer(parameters, in_address, server, is_posted, client):
    """The reply to a request; `in_address` names the parameters that its address has."""
    asked = Asked(parameters, in_address, server, is_posted, client)
    reply, failed, given = {}, None, {}
    try:
        given = asked.read("main", TABLE)
        check_main(given)
        reply = action_of(given["action"])(asked)
        asked.tell_unused()
        if asked.parameters.get("action") in READS:
            asked.tell_points()
    except ApiError as it:
        failed = it
    except WikiError as it:
        failed = told(it, parameters.get("titles", parameters.get("title", "")))
    return put_together(asked, given, reply, failed)


def put_together(asked, given, reply, failed):
    """The bytes of a reply, with what goes for all."""
    version = 1 if asked.parameters.get("formatversion", "1") not in ("2", "latest") else 2
    found = {}
    if failed:
        help_text = f"See {asked.site.base}/api.php for API usage, and docs/CLIENTS.md for what this wiki has of it."
        found["error"] = {"code": failed.code, "info": failed.info, **failed.more, "*" if version == 1 else "docref": help_text}
    if asked.warnings:
        name = "*" if version == 1 else "warnings"
        found["warnings"] = {module: {name: "\n".join(texts)} for module, texts in asked.warnings.items()}
    for name, value in ({} if failed else reply).items():
        found[name] = value
    if asked.limits and not failed:
        found["limits"] = asked.limits
    if "requestid" in asked.parameters:
        found["requestid"] = asked.parameters["requestid"]
    if given.get("curtimestamp"):
        found["curtimestamp"] = iso_of(int(time.time()))
    if given.get("servedby"):
        found["servedby"] = asked.site.base.partition("://")[2]
    is_ascii = "utf8" not in asked.parameters if version == 1 else "ascii" in asked.parameters
    return Reply(written(found, version, is_ascii), failed.code if failed else None)
