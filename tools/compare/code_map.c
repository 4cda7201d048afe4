/* The code map of CFF fonts as FreeType reads it: one line `NAME: CODE=GLYPH ..` for each file, glyphs by their names, `.notdef` left out.

       cc -o code_map code_map.c $(pkg-config --cflags --libs freetype2)
       code_map FONT... */

#include <ft2build.h>
#include FT_FREETYPE_H
#include <stdio.h>

static int is_own(FT_Encoding encoding)
{
    return encoding == FT_ENCODING_ADOBE_CUSTOM || encoding == FT_ENCODING_ADOBE_EXPERT || encoding == FT_ENCODING_ADOBE_STANDARD;
}

static int print_codes(FT_Library library, const char *path)
{
    FT_Face face;
    if (FT_New_Face(library, path, 0, &face) != 0)
        return 1;
    printf("%s:", path);
    for (int k = 0; k < face->num_charmaps; k++) {
        if (!is_own(face->charmaps[k]->encoding))
            continue;
        FT_Set_Charmap(face, face->charmaps[k]);
        for (FT_ULong code = 0; code < 256; code++) {
            char name[256];
            FT_UInt glyph = FT_Get_Char_Index(face, code);
            if (glyph != 0 && FT_Get_Glyph_Name(face, glyph, name, sizeof name) == 0)
                printf(" %lu=%s", code, name);
        }
        break;
    }
    printf("\n");
    FT_Done_Face(face);
    return 0;
}

int main(int argc, char **argv)
{
    FT_Library library;
    if (FT_Init_FreeType(&library) != 0)
        return 1;
    for (int k = 1; k < argc; k++) {
        if (print_codes(library, argv[k]) != 0) {
            fprintf(stderr, "code_map: %s is no font\n", argv[k]);
            return 1;
        }
    }
    return 0;
}
