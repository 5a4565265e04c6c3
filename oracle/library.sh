# Sets library_flags: what rustc needs to link the static library, and a cfg for each function that it has. Sourced.
library=${TOASTLAGOON_LIB:-$root/target/staticlib/libtoastlagoon.a}
library_flags=""
# Made where rt can make it; one that is newer than its sources is kept.
if [ -z "${TOASTLAGOON_LIB:-}" ] && command -v rt >/dev/null; then "$root/build" library || echo "the static library is not built"; fi
if [ -f "$library" ]; then
    for name in tl_blake2s256 tl_root tl_horizontal_sigma tl_agreement tl_decide tl_decide_any; do
        if nm "$library" 2>/dev/null | grep -q " T $name\$"; then library_flags="$library_flags --cfg has_$name"; fi
    done
    # A symbol, and what is there where the library has it.
    for pair in tl_register_report:register tl_board:board tl_register_preview:preview tl_register_map:map tl_register_fixes:fixes tl_record_write:values \
        tl_register_session:session tl_track_report:track; do
        if nm "$library" 2>/dev/null | grep -q " T ${pair%:*}\$"; then library_flags="$library_flags --cfg has_${pair#*:}"; fi
    done
    library_flags="$library_flags -C link-arg=$library"
else
    echo "no static library at $library (run './build library', or set TOASTLAGOON_LIB): the Rust runs alone"
fi
if [ -f "$out/libsolver_real.rlib" ]; then library_flags="$library_flags --cfg real_libm"; fi
