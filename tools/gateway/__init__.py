"""What `tundelca_gateway.py` does: a policy, questions and their answers, the node that decides, and HTTP before it."""
