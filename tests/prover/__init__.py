"""What works on the Rattle sources, their proofs and the prover."""
