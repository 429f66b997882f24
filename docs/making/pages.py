"""The pages that are made and not tracked: a module for each."""
from making import attributes, contracts, definitions, instructions

PAGES = {
    "CONTRACTS.md": contracts,
    "DEFINITIONS.md": definitions,
    "INSTRUCTIONS.md": instructions,
    "ATTRIBUTES.md": attributes,
}
