"""What a query's `meta` tells: of the site, of who asks, and tokens."""
import time
import urllib.parse

from mediawiki.parameters import choice, choices, flag, lost, text
from mediawiki.shapes import Content
from mediawiki.titles import address, wanted
from moving import NAMESPACES, iso_of

TOKEN = "+\\"
VERSION = "MediaWiki 1.39.17"
RIGHTS = ["createpage", "createtalk", "delete", "edit", "read", "writeapi"]
ALIASES = {6: "Image", 7: "Image talk"}

SITEINFO = {
    "prop": choices(
        "general", "namespaces", "namespacealiases", "statistics", "extensions", "interwikimap", "fileextensions", "skins", "rightsinfo",
        "usergroups", default="general"
    ),
    "filteriw": choice("local", "!local"), "showalldb": flag(), "numberingroup": flag(), "inlanguagecode": lost("names are in English alone"),
}
USERINFO = {
    "prop": choices(
        "blockinfo", "hasmsg", "groups", "implicitgroups", "rights", "editcount", "groupmemberships"
    ),
    "attachedwiki": text(),
}
TOKENS = {"type": choices("createaccount", "csrf", "login", "patrol", "rollback", "userrights", "watch", default="csrf")}


def general(query):
    site = query.asked.site
    return {
        "mainpage": site.main_page, "base": address(site.base, wanted(site.main_page)), "sitename": site.name,
        "generator": VERSION, "case": "first-letter", "lang": "en", "fallback": [], "rtl": False, "readonly": False, "writeapi": True,
        "maxarticlesize": 2 << 20, "timezone": "UTC", "timeoffset": 0, "articlepath": "/#$1", "scriptpath": "/w", "script": "/index.php",
        "server": site.base, "servername": urllib.parse.urlsplit(site.base).hostname, "wikiid": "kilandru", "time": iso_of(int(time.time())),
        "misermode": False, "uploadsenabled": False, "langconversion": False, "titleconversion": False, "legaltitlechars": ' %!"$&\'()*,\\-.\\/0-9:;=?@A-Z\\\\^_`a-z~\\x80-\\xFF+',
    }


def namespaces(query):
    return {str(number): namespace(number, name) for number, name in NAMESPACES.items()}


def namespace(number, name):
    found = {"id": number, "case": "first-letter", "name": Content(name), "subpages": False}
    return {**found, **({"canonical": name} if name else {}), "content": number == 0, "nonincludable": False}


def statistics(query):
    told = query.reader.ask(action="query", meta="siteinfo")["query"]["statistics"]
    return {"pages": told["pages"], "edits": told["edits"], "images": 0, "users": 0, "activeusers": 0, "admins": 0, "jobs": told["jobs"]}


SITE = {
    "general": general, "namespaces": namespaces, "statistics": statistics,
    "namespacealiases": lambda query: [{"id": number, "alias": Content(name)} for number, name in ALIASES.items()],
    "extensions": lambda query: [], "interwikimap": lambda query: [], "fileextensions": lambda query: [], "skins": lambda query: [],
    "rightsinfo": lambda query: {"url": "", "text": ""}, "usergroups": lambda query: [{"name": "*", "rights": RIGHTS}],
}


def siteinfo(query, given, _):
    for name in given["prop"]:
        query.result[name] = SITE[name](query)


# What userinfo tells of everybody, since nobody has an account.
EVERYBODY = {
    "hasmsg": {"messages": False}, "groups": {"groups": ["*"]}, "implicitgroups": {"implicitgroups": ["*"]}, "rights": {"rights": RIGHTS},
    "editcount": {"editcount": 0}, "groupmemberships": {"groupmemberships": []},
}


def userinfo(query, given, _):
    found = {"id": 0, "name": query.asked.client, "anon": True}
    for name in given["prop"]:
        found.update(EVERYBODY.get(name, {}))
    query.result["userinfo"] = found


def tokens(query, given, _):
    query.result["tokens"] = {f"{it}token": TOKEN for it in given["type"]}
