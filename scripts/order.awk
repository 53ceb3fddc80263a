# In which order the words of an answer stand.

# The place of a launch among those of its cycle, as words stand: operates and plain loads, the branch, held loads,
# the store, and what overwrites an input.
function group(row, pin) {
    if (pin != "" && (pin in taken)) return 4
    if (row == rows) return 1
    if (op[row] ~ /^(store|st[bwl]|put[bwl]?)$/) return 3
    return op[row] ~ /^(select|ld(bu|wu|l)|load(bu|wu|l)?)$/ && held ? 2 : 0
}

# The launches in the order of their words.
function sort_launches(    i, j, t) {
    for (i = 1; i <= launches; i++) order[i] = i
    for (i = 2; i <= launches; i++)
        for (j = i; j > 1 && key[order[j]] < key[order[j - 1]]; j--) { t = order[j]; order[j] = order[j - 1]; order[j - 1] = t }
}
