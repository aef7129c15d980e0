"""The parts of tools/wrong-rules, in the order in which they are needed:

  expressions  reads .antt: words, and the expressions and patterns of them
  paper        reads .antt: files, and what the believed crates have of them
  changes      the kinds of change, by the kind of expression
  making       a change as a wrong rule
  python_code  a definition written as Python
  rows         computes the rows by it
  prover       asks the prover
  run          what became of each wrong rule, and the log of it
  report       what is told at the end
"""
