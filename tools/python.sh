# To be sourced: a Python for the shared library, with what the package's tests need, as "$python"; installs what is missing (Debian's packages).
# On another processor than x86-64 it is an x86-64 one, unpacked into target/python-x86 (x86_python.sh) and run by an emulator.
. "$(dirname "${BASH_SOURCE[0]}")/x86.sh"
python_packages=(python3 python3-venv python3-pip python3-setuptools python3-wheel python3-pytest python3-hypothesis python3-numpy python3-pandas python3-dask python3-distributed)
if [ "$(uname -m)" = x86_64 ]; then
    need_packages "${python_packages[@]}"
    python=/usr/bin/python3
else
    x86_tools
    python=$root/target/python-x86/sys/usr/bin/python-x86
    [ -x "$python" ] || bash "$root/tools/x86_python.sh" "$root/target/python-x86" "${python_packages[@]}" >&2
fi
