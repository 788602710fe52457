while widow & !last {
    feather by -0p6
};
if note {
    foot by 1p0;
    rule
} else {
    if figure { float }
};
[!orphan]
