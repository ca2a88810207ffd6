/* A harness without libFuzzer: each file named is one input. */
#include "area.h"

int LLVMFuzzerTestOneInput(const uint8_t *data, size_t size);

int main(int count, char **names)
{
    static uint8_t data[2 * AREA];
    for (int i = 1; i < count; i++) {
        FILE *file = fopen(names[i], "rb");
        EXPECT(file != NULL);
        size_t size = fread(data, 1, sizeof data, file);
        fclose(file);
        LLVMFuzzerTestOneInput(data, size);
    }
    printf("%d inputs, every answer as promised\n", count - 1);
    return count > 1 ? 0 : 1;
}
