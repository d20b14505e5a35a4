# Sourced by tests/runs/registers.sh: the recipes for Dask, on a cluster that is started here, and for Spark.
# shellcheck shell=bash disable=SC2154 # (the file that reads it sets its variables)

dask_python=
for python in python3 /usr/bin/python3; do
    [ -n "$dask_python" ] || ! "$python" -c 'import dask.bag, distributed, pandas' 2>/dev/null || dask_python=$python
done
if [ -z "$dask_python" ] || [ ! -d "$library/python" ]; then
    left_out registers 'the recipes for a cluster' "python3-distributed or python3-pandas isn't installed"
else
    quietly timeout 600 "$dask_python" "$top/tests/runs/registers/cluster.py" "$program"
    echo "registers: recipes for Dask $("$dask_python" -c 'import distributed; print(distributed.__version__)') and Spark:" \
        "$(sed -n 's/^Ran \([0-9]* tests\).*/\1/p' "$room/said"); $(sed -n 's/.*(skipped=1).*/in Spark itself one is left out/p' "$room/said")"
fi
