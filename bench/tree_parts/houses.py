"""The houses of the repository: a crate bears the name of its house, alone or before its own.

Each house has the crates whose public calls are promises. The calls of its other crates are parts on which these rest, but for laws, which are
promises wherever they stand. Whoever adds a house names it here, and draws it in docs/ARCHITECTURE.md.
"""

HOUSES = {
    "base": ["base_texts"],
    "cacao_site": ["cacao_site", "cacao_site_log", "cacao_site_memory", "cacao_site_files"],
    "cacao_json": ["cacao_json"],
    "cacao_ids": ["cacao_ids"],
    "cacao_vars": ["cacao_vars"],
    "cacao_text": ["cacao_text"],
    "cacao_cond": ["cacao_cond"],
    "cacao_book": ["cacao_book"],
    "cacao_check": ["cacao_check"],
    "oc2_nets": ["oc2_nets"],
    "oc2_msg": ["oc2_msg"],
    "oc2_wire": ["oc2_wire", "oc2_wire_link", "oc2_wire_memory", "oc2_wire_process", "oc2_wire_lines", "oc2_wire_site"],
    "slpf_rules": ["slpf_rules"],
    "slpf_shadow": ["slpf_shadow"],
    "slpf_actuator": ["slpf_actuator", "slpf_actuator_acts"],
    "run_records": ["run_records"],
    "run_journal": ["run_journal"],
    "flow_core": ["flow_core"],
    "flow_engine": ["flow_engine"],
    "flow_laws": ["flow_laws"],
    "flow_audit": ["flow_audit"],
    "flow_world": ["flow_world"],
    "flow_fleet": ["flow_fleet"],
    "cacao_cli": ["cacao_cli"],
    "cacao_view": ["cacao_view"],
    "cacao": [],
    "test": [],
}

# The crates whose public calls are promises.
OWNERS = {crate for crates in HOUSES.values() for crate in crates}

def house_of(crate):
    """The house whose name a crate bears, or None."""
    # (so many names begin with the word `cacao` that the house of the program is its crate alone)
    found = [house for house in HOUSES if crate == house or (house != "cacao" and crate.startswith(f"{house}_"))]
    return max(found, key=len, default=None)


def listed(root):
    """The crates of crates.txt, in its order, each with the libraries that it stands on."""
    crates = {}
    for line in (root / "crates.txt").read_text(encoding="utf-8").split("\n"):
        name, _, libraries = line.partition("#")[0].partition(":")
        if name.strip():
            crates[name.split()[0]] = libraries.split()
    return crates


def strangers(root):
    """The crates that bear the name of no house."""
    return [f"crates.txt: {crate} bears the name of no house" for crate in listed(root) if house_of(crate) is None]
