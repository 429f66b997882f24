"""The files of bench/hostile, by what makes them slow.

- long_texts, long_names, long_descriptors, many_bootstraps: texts, names and descriptors that very many others name
- direct_interfaces: very many interfaces, and calls of their methods
- many_classes, protected_chains, final_methods: very many classes, and lines of superclasses
- handlers_over_stores, missing_classes: frames of very many handlers and targets
- held_objects, deep_stacks: objects that are initialized in large frames
- explained_frames, explained_targets: methods whose refusal `explain` prints
"""
