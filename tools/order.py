"""In which order crates are proved side by side so that all are done soonest."""

# How long their proofs take, in seconds of a processor. Only the proportions count, and they only say what is begun
# first; a crate that isn't here takes as long as most.
SECONDS = {
    "pargrep": 135,
    "pg_base": 50,
    "pg_blocks": 110,
    "pg_board": 80,
    "pg_bytes": 35,
    "pg_command": 65,
    "pg_files": 180,
    "pg_glob": 70,
    "pg_grammar": 35,
    "pg_lines": 160,
    "pg_literal": 310,
    "pg_match": 600,
    "pg_pattern": 30,
    "pg_plan": 15,
    "pg_prefetch": 190,
    "pg_prefilter": 200,
    "pg_reader": 45,
    "pg_report": 40,
    "pg_request": 95,
    "pg_round": 110,
    "pg_rows": 230,
    "pg_run": 250,
    "pg_search": 40,
    "pg_selection": 25,
    "pg_seq": 135,
    "pg_strings": 120,
    "pg_syntax": 155,
    "pg_walk": 145,
    "pg_words": 280,
    "pg_workers": 150,
}
SECONDS_OF_MOST = 100


def by_urgency(names, crates):
    """These crates, first those with the longest chain of proofs that wait for theirs. Of two that need one another the
    lower one stands first."""
    chain = dict.fromkeys(names, 0)
    for name in sorted(names, key=lambda it: len(crates[it].below), reverse=True):
        chain[name] += SECONDS.get(name, SECONDS_OF_MOST)
        for below in crates[name].uses:
            chain[below] = max(chain[below], chain[name])
    return sorted(names, key=lambda it: -chain[it])
