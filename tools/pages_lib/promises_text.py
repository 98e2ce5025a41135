"""What the list of promises says in words, above the promises."""

HEAD = """\
# The list of promises

Which promises are there, and which clauses, planted bugs and tests are behind each? [The promises,
read aloud](promises.md) explains the first one, and the signs of clauses.
`tools/pages --list` prints this page. It is made of `docs/promises.toml` and the sources.
Each heading is a promise's name, by which other pages cite it. Under it come:

- its sentence, and what is **only tested** beside it, as no clause says it;
- the calls that carry it, with the names of their clauses where they have any. The first clause
  says the promise, and is quoted where it is short. Then, how many definitions all of them rest on;
- **wrong bodies**, programs that the prover must refuse, and **wrong rules**, definitions under
  which a law must fail, as many as a line has room for. Each is a file of that name in `must-fail/`
  of the crate that it changes: `tools/pages --list NAME` prints all of a promise, with their paths.

*Sound* tables are those in which the rules of the store hold ([`sound-tables`](#sound-tables)). Two
exceptions hold throughout, and each clause says where it makes one: want of memory, and a disk that
doesn't return what was written.

**To read one**, read its clauses: what a call supposes (`requires`, and what comes before an
arrow), and what it says. A law's premises are the fields of [its
record](proof.md#laws-steps-and-runs). Then read the definitions, which `tools/pages
--list NAME` prints in reading order. Ask of each: does it say what its comment says, and is that
what is promised? Would it hold of one of the wrong bodies? No proof has to be read. Laws over runs
have no body, so a wrong rule tries each. Two are tried by other laws: `runs_exist` by that of one
step, `runs_keep_the_promises` by those of the fields of `Promises`.

{total}
"""
