#define ENGINE_STRUCTURE_0 effect
#define IS_ENHANCED

void PrintInteger(int nInteger);
