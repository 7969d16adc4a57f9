# Sourced by the scripts that need the given Rust, in the repository's root: finds it where BALECREAK_SHARED says,
# or in `shared` beside the repository. It is not part of the repository; without it the script says so and ends
# with 77, as one does that was skipped.
BALECREAK_SHARED=${BALECREAK_SHARED:-../shared}
if [ ! -d "$BALECREAK_SHARED/docs/src/src" ]; then
    echo "skipped: the given Rust is not in $BALECREAK_SHARED/docs/src (BALECREAK_SHARED names its place)"
    exit 77
fi
BALECREAK_SHARED=$(cd "$BALECREAK_SHARED" && pwd)
export BALECREAK_SHARED
