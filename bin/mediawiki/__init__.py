"""MediaWiki's api.php in front of a wiki of this engine: bin/mediawiki-api serves it, docs/CLIENTS.md says who can use it.

A request goes through `server` (HTTP), `forms` (its parameters) and `actions` (which action it asks for), and asks the wiki by
`wiki`. Of a query `query` puts the answer together: `pageset` has its pages, `meta`, `lists`, `props` and their neighbours
have a function for each of its modules. `parameters` and `errors` have the forms that a parameter and an error can have,
`shapes` the two forms of a reply."""
