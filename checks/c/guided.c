/* The same comparison, with files that libFuzzer chooses by what the reader runs through. */
#include "compare.c"

int LLVMFuzzerTestOneInput(const uint8_t *input, size_t length);
size_t LLVMFuzzerCustomMutator(uint8_t *input, size_t length, size_t most, unsigned seed);

int LLVMFuzzerTestOneInput(const uint8_t *input, size_t length) {
    static made_table made;
    if (!made_of_input(&made, input, length)) return 0;
    random_seed(length);
    if (!compare(made.name, made.dtz, made.bytes, made.length)) abort();
    return 0;
}

size_t LLVMFuzzerCustomMutator(uint8_t *input, size_t length, size_t most, unsigned seed) {
    static made_table made, other;
    random_seed(seed);
    if (!made_of_input(&made, input, length) || random_one_in(50)) make_table(&made);
    if (!other.length || random_one_in(10)) other = made;
    change_table(&made, &other);
    return input_of_made(&made, input, most);
}
