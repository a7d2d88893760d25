#include <stdio.h>

#include "px8.h"

int main(void)
{
    static px8_bay bay;
    char row[PX8_WIDTH + 1];
    px8_answer answer;
    px8_bay_open(&bay, 1);
    answer = px8_bay_message(&bay, "LOAD kg \033=#$38,500", 18);
    printf("%s: %s\n", px8_text(answer.number), px8_bay_row(&bay, 4, row));
    return PX8_CLEAN(answer) ? 0 : 1;
}
