"""What a Rust programmer who has not seen the repository finds in ten minutes, from the README and two clicks.

`tests/docs` checks that each answer is at its place, and that two clicks lead to its page.
"""

# The question, the page and the heading of its answer, and words below that heading.
ANSWERS = [
    ("How do I run it?", "README.md", "tinyjson-for-rattle", "`cd crates/jsonnorm`"),
    ("How do I use it in a program?", "README.md", "use-it", "`tools/vendor ~/mine`"),
    ("How do I test one program?", "README.md", "tinyjson-for-rattle", "`tests/run --unproved json_path`"),
    ("Is `1e400` equal to `10e399`?", "README.md", "tinyjson-for-rattle", "`1e400` equals `10e399`"),
    ("What happens at depth 10,000?", "README.md", "what-is-guaranteed", "Depth has no limit unless you set one"),
    ("What happens with equal keys?", "README.md", "tinyjson-for-rattle", "Of equal keys the last one counts"),
    ("What happens with a lone surrogate?", "README.md", "tinyjson-for-rattle", "a lone surrogate is an error"),
    ("Which crate has JSON Pointer?", "README.md", "what-is-here", "JSON Pointer (RFC 6901)"),
    ("How do I check JSON against a schema from code?", "crates/tinyjson_schema/README.md", "try-it", "`Schema::read`"),
    ("From a shell?", "crates/json_schema/README.md", "json_schema", "`rt try -- data/schema.json`"),
    ("From Python?", "docs/RECIPES.md", "from-python-and-other-languages", "`tinyjson.valid`"),
    ("How do I read a file of 40 GB?", "docs/RECIPES.md", "files-larger-than-memory", "`JsonParser::parse_events`"),
    ("What is not proved?", "docs/GUARANTEES.md", "what-is-not-proved", "Stack and time"),
    ("How long does the gate take?", "CONTRIBUTING.md", "build-and-check", "From nothing the proofs of the gate take some 155 minutes"),
    ("Where is the grammar?", "docs/DEFINITIONS.md", "grammar", "In `tinyjson_grammar/specs`"),
    ("How do I report a weak contract?", "CONTRIBUTING.md", "reports", "weak_contract.md"),
]
