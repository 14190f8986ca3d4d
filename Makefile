# run: the main job on a small model. test: the gate and the host's tests. The others: see host/targets.mk.
.PHONY: run test
run: host
	$(HOST)/hingrezh build examples/rollout.words --vertices 64 --edges 128
	@echo "examples/README.md explains the words and the lines, docs/VERDICTS.md who wins."

# `rt ci` removes the archive that `make host` built; the host's tests build it and the command anew.
test:
	.ci/run

include host/targets.mk
