# Links an object file of the library for wasm64 with what stands between it and its callers, and lowers what comes of
# that to memories of 32 bits, which every browser has. The script generated/wasm/make reads this file; it sets `top`.

# Debian's LLVM of this number assembles what the kit's writes, and binaryen lowers it.
clang=${CLANG:-clang-22}
linker=${WASM_LD:-wasm-ld-22}
lowering=${WASM_OPT:-wasm-opt}
target=(--target=wasm64-unknown-unknown -mcpu=lime1)

# What is missing, or nothing.
missing_tools() {
    local it
    for it in "$clang" "$linker" "$lowering"; do
        command -v "$it" >/dev/null || echo "$it"
    done | paste -s -d ' '
}

# Compiles C that stands beside the library, each file into a folder.
compile_beside() { # folder, files
    local it
    for it in "${@:2}"; do
        "$clang" "${target[@]}" -O2 -Wall -Wextra -Werror -ffreestanding -ffunction-sections -c "$it" -o "$1/$(basename -- "$it" .c).o" || return
    done
}

# Lowers a module for memories of 64 bits to one for memories of 32.
lower_memory() { # module, file
    "$lowering" --enable-memory64 --enable-bulk-memory --enable-sign-ext --enable-mutable-globals \
        --enable-nontrapping-float-to-int --enable-multivalue --memory64-lowering -O3 --strip-debug --strip-producers \
        "$1" -o "$2"
}

# Makes the module of an object file of the library.
link_module() { # object file, folder for what comes between, file, more object files
    local folder=$2
    mkdir -p -- "$folder"
    python3 "$top/generated/wasm/glue.py" "$folder" || return
    compile_beside "$folder" "$top/generated/wasm/helpers.c" "$folder/apart.c" "$folder/narrow.c" || return
    "$linker" -mwasm64 --no-entry --stack-first -z stack-size=65536 --export=__heap_base --gc-sections --fatal-warnings \
        -o "$folder/linked.wasm" "$folder/helpers.o" "$folder/apart.o" "$folder/narrow.o" "${@:4}" "$1" || return
    python3 "$top/generated/wasm/narrow_table.py" "$folder/linked.wasm" "$folder/narrow.wasm" || return
    lower_memory "$folder/narrow.wasm" "$3"
}
