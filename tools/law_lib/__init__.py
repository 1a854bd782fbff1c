"""The law over histories, a second time: a slow evaluator of the definitions in crates/md_law/specs, over logs without ticks.

Each function has the name of the definition that it transcribes, in small letters, and says what its text says: there its comment stands.
The letters are those of the definitions: `h` and `m` are histories, `d` a looker, `c` a claim, `p` and `q` paths. An existential is `any`,
a universal `all`, and `P → ⊥` is `not`. A quantifier goes over what the other parts of its statement leave, and one over histories over
the beginnings of the history that is judged.
"""
