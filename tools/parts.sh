# The parts that `differential/build`, `measure/run` and `replay/make` share: read by `.`, with $src, $out and $tree set.
#   src   the folder `src` of the Rust text, with utils/mod2_sys.rs, func/peeling.rs and func/vbuilder.rs
#   out   where all is built
#   tree  the repository
. "$tree/tools/kit.sh"
machine=$(uname -m)

# The module that rattle hands to the compiler for the static library CRATE, in FILE: it is kept by a stand-in for the kit's compiler.
# The libraries below are those of the last `rt lib`.
module() ( # CRATE FILE
    rm -rf "$out/stand-in"
    mkdir -p "$out/stand-in/bin"
    for f in "$tools"/* "$tools"/bin/*; do
        name=${f#"$tools"/}
        case $name in bin | bin/clang) ;; *) ln -sfn "$f" "$out/stand-in/$name" ;; esac
    done
    cat >"$out/stand-in/bin/clang" <<W
#!/bin/sh
for a in "\$@"; do case \$a in *.bc) cp "\$a" "$2" ;; esac; done
exec "$tools/bin/clang" "\$@"
W
    chmod +x "$out/stand-in/bin/clang"
    static_library "$1" "$out/stand-in" "$out/stand-in/made.a" >"$out/rt.log" 2>&1 || { cat "$out/rt.log" >&2; exit 1; }
)

# The module, without what it says of its x86-64 target, compiled for another: TARGET by the compiler's name, and the compiler's words for it.
compile_module() { # MODULE OBJECT TARGET WORDS..
    module=$1 object=$2 target=$3
    shift 3
    "$tools/bin/clang" --target=x86_64-unknown-linux-gnu -x ir "$module" -S -emit-llvm -O0 -Xclang -disable-llvm-passes -o "$out/module.ll"
    {
        echo 'int x;' | "$tools/bin/clang" --target="$target" "$@" -x c - -S -emit-llvm -o - | sed -n '/^target/p'
        sed -e '/^target datalayout/d; /^target triple/d' -e 's/"target-cpu"="[^"]*"//g; s/"target-features"="[^"]*"//g' "$out/module.ll"
    } >"$out/native.ll"
    "$tools/bin/clang" --target="$target" "$@" -c -x ir "$out/native.ll" -o "$object"
}

# The proved calls of both crates: OUT/NAME.a for x86-64, as rt writes it, and OUT/NAME.o for another machine.
proved_calls() {
    for name in exports_c peel_exports_c; do
        proved_library $name "$out/$name.a" "$out/rt.log" || exit 1
        [ "$machine" = x86_64 ] || {
            module $name "$out/$name.bc"
            compile_module "$out/$name.bc" "$out/$name.o" "$machine-unknown-linux-gnu" -O3 -fPIC
        }
    done
}

rust_text() {
    mkdir -p "$out/gen"
    cp "$tree"/tools/differential/original/*.rs "$out/"
    cp "$src/utils/mod2_sys.rs" "$src/func/peeling.rs" "$out/gen/"
    # the whole functions peel_by_sig_vals_high_mem, peel_by_sig_vals_low_mem and assign
    { cat "$out/vbuilder_head.rs"; sed -n -e 2151,2272p -e 2294,2408p -e 2812,2849p "$src/func/vbuilder.rs"; echo '}'; } >"$out/gen/vbuilder.rs"
}

# The unchanged Rust as the crate `original` in the folder TO, by the compiler RUSTC.
original() { # TO RUSTC FLAGS..
    to=$1 rustc=$2
    shift 2
    mkdir -p "$to"
    for c in anyhow arbitrary_chunks; do
        "$rustc" --edition 2024 "$@" --crate-type rlib --crate-name $c "$out/$c.rs" -o "$to/lib$c.rlib"
    done
    "$rustc" --edition 2024 "$@" --cfg 'feature="rayon"' -A unexpected_cfgs -A unused --crate-type rlib --crate-name original \
        --extern anyhow="$to/libanyhow.rlib" --extern arbitrary_chunks="$to/libarbitrary_chunks.rlib" "$out/original.rs" -o "$to/liboriginal.rlib"
}

# The program `driver` in OUT/NAME, by the compiler RUSTC, with the calls of the files *.KIND.
driver() { # NAME RUSTC KIND FLAGS..
    to=$out/$1 rustc=$2 kind=$3
    shift 3
    original "$to" "$rustc" "$@"
    "$rustc" --edition 2024 "$@" -g -L "$to" --extern original="$to/liboriginal.rlib" "$tree/tools/differential/driver.rs" \
        -C link-arg="$out/exports_c.$kind" -C link-arg="$out/peel_exports_c.$kind" -o "$to/driver"
}
