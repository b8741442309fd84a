"""Wrong bodies: edits of a crate that the prover has to refuse.

edits       what an edit is, and whether it can be applied
functions   which function's inside a line of a source is
rounds      which edits are tried at once
reports     what rt says of a check, and of an edit that it tried alone
trials      copies of the repository, and rt in them
"""
