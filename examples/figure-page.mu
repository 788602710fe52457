[figure];
float by 1p6;
while widow & !(head | last) {
    feather by -0p3;
    if orphan { hyphen }
};
if last { page } else { column }
