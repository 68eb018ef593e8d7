#!/usr/bin/env bash
# rustc for the crates of a workspace (cargo's RUSTC_WORKSPACE_WRAPPER), with counters of regions and conditions.
exec "$@" -C instrument-coverage -Z coverage-options=condition
