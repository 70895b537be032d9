# For the scripts of this folder, which set `here`.
# program CRATE: sets the variable with the crate's name in capitals to its program, which is proved and built unless the variable names one already.
program() {
    local name=${1^^} path
    if [ -z "${!name:-}" ]; then
        path=$(python3 "$here/build_program.py" "$1") || exit 1
        printf -v "$name" %s "$path"
    fi
    export "${name?}"
}
