/* A window that plays a log of accesses picture by picture, with the unit's record beside the picture. It needs SDL2. After `make install`:

       cc examples/viewer.c $(pkg-config --cflags --libs ppu sdl2) -o viewer && ./viewer examples/picture.log

   play.h plays the log, screen.h draws picture and panel; here are the options, the window and the keys. */
#include <SDL.h>
#include <errno.h>
#include <stdlib.h>
#include "screen.h"

enum { PICTURES_A_SECOND = 60, MOST_SCALE = 16, BAD_USE = 2 };

static const char usage[] = "usage: viewer [--board N] [--scale N] [--palette FILE] [--paused] [--until-picture N] LOG\n"
                            "  --board N          the board byte, 0 to 4 or 8 to 12; 9 if not said. Wiring 0 horizontal, 1 vertical, 2 first page,\n"
                            "                     3 second page, 4 four pages (each quarter its own page, 4096 bytes of nametable RAM), and 8\n"
                            "                     more if pattern memory can be written\n"
                            "  --scale N          the window's size at first, 1 to 16 times; 2 if not said\n"
                            "  --palette FILE     64 colours of 3 bytes, red, green, blue, or 512, 64 for each emphasis, none first\n"
                            "  --paused           waits before the first record\n"
                            "  --until-picture N  plays N pictures, then pauses\n"
                            "keys: space plays or pauses; n or Right goes on by a picture, l or Down by a line, h to the next sprite 0 hit;\n"
                            "      r starts again; s writes the screen to a BMP file; q or Escape quits\n";

typedef struct {
    const char *log, *palette;
    int scale, paused;
    unsigned long until; /* pictures; 0: to the log's end */
    uint8_t board;
} Options;

typedef struct {
    Play play;
    Screen screen;
    const char *name; /* the log's, without its folder */
    int playing;
    unsigned long until;
    char message[64], title[160];
    SDL_Window *window;
    SDL_Surface *canvas; /* the screen's pixels */
} Viewer;

static void fail(const char *what, const char *why)
{
    fprintf(stderr, "viewer: %s: %s\n", what, why);
    exit(BAD_USE);
}

static unsigned long number(const char *option, const char *text, unsigned long least, unsigned long most)
{
    char *end, why[120];
    errno = 0;
    unsigned long n = text ? strtoul(text, &end, 10) : 0;
    if (text && *text >= '0' && *text <= '9' && *end == 0 && errno == 0 && n >= least && n <= most)
        return n;
    snprintf(why, sizeof why, "a number from %lu to %lu is wanted", least, most);
    fail(option, why);
    return 0;
}

static Options options(char **words)
{
    Options o = { NULL, NULL, 2, 0, 0, PPU_VERTICAL | PPU_WRITABLE };
    while (*++words) {
        if (strcmp(*words, "--help") == 0) {
            fputs(usage, stdout);
            exit(0);
        } else if (strcmp(*words, "--paused") == 0) {
            o.paused = 1;
        } else if (strcmp(*words, "--board") == 0) {
            o.board = (uint8_t)number("--board", *++words, 0, 255);
        } else if (strcmp(*words, "--scale") == 0) {
            o.scale = (int)number("--scale", *++words, 1, MOST_SCALE);
        } else if (strcmp(*words, "--until-picture") == 0) {
            o.until = number("--until-picture", *++words, 1, 1000000000);
        } else if (strcmp(*words, "--palette") == 0) {
            o.palette = *++words;
            if (!o.palette)
                fail("--palette", "a file is wanted");
        } else if (**words == '-' || o.log) {
            fail(*words, "unknown; viewer --help says what can be asked");
        } else {
            o.log = *words;
        }
    }
    if (!o.log)
        fail("no log", "viewer --help says what can be asked");
    return o;
}

/* A whole file, also one that has no length beforehand, as a pipe. */
static uint8_t *read_file(const char *name, size_t *length)
{
    size_t room = 65536, got = 0;
    uint8_t *bytes = malloc(room);
    FILE *file = fopen(name, "rb");
    if (!file)
        fail(name, strerror(errno));
    while (bytes && (got += fread(bytes + got, 1, room - got, file)) == room) {
        uint8_t *more = realloc(bytes, room *= 2);
        if (!more)
            free(bytes);
        bytes = more;
    }
    if (!bytes)
        fail(name, "too large for the memory");
    if (ferror(file))
        fail(name, strerror(errno));
    fclose(file);
    *length = got;
    return bytes;
}

static void set_colours(Screen *s, const char *palette)
{
    colours_set(s->rgb, colours_2c02, sizeof colours_2c02);
    if (!palette)
        return;
    char why[120];
    size_t length;
    uint8_t *bytes = read_file(palette, &length);
    snprintf(why, sizeof why, "%lu bytes; a palette has %d or %d", (unsigned long)length, SHORT_PALETTE_FILE_LENGTH, PALETTE_FILE_LENGTH);
    if (!colours_set(s->rgb, bytes, length))
        fail(palette, why);
    free(bytes);
}

static void open_window(Viewer *v, int scale)
{
    if (SDL_Init(SDL_INIT_VIDEO) != 0)
        fail("no window", SDL_GetError());
    /* without a display some versions of SDL draw into memory that no one sees */
    if (!SDL_getenv("SDL_VIDEODRIVER") && strcmp(SDL_GetCurrentVideoDriver(), "offscreen") == 0)
        fail("no window", "there is no display");
    v->window = SDL_CreateWindow(v->name, SDL_WINDOWPOS_UNDEFINED, SDL_WINDOWPOS_UNDEFINED, scale * SCREEN_WIDTH, scale * SCREEN_HEIGHT,
                                 SDL_WINDOW_RESIZABLE);
    v->canvas = SDL_CreateRGBSurfaceFrom(v->screen.pixels, SCREEN_WIDTH, SCREEN_HEIGHT, 32, sizeof v->screen.pixels[0], 0xFF0000, 0xFF00, 0xFF, 0);
    if (!v->window || !v->canvas)
        fail("no window", SDL_GetError());
    SDL_SetWindowMinimumSize(v->window, SCREEN_WIDTH, SCREEN_HEIGHT);
}

static const char *state(const Viewer *v) { return v->playing ? "playing" : play_ended(&v->play) ? "end of log" : "paused"; }

/* Set after the screen is shown, so that who sees the title can rely on the screen. While playing it changes twice a second. */
static void set_title(Viewer *v)
{
    char title[sizeof v->title];
    unsigned long every = v->playing ? PICTURES_A_SECOND / 2 : 1;
    snprintf(title, sizeof title, "%.80s: picture %lu, %s", v->name, v->play.pictures / every * every, state(v));
    if (!v->playing && !play_ended(&v->play))
        snprintf(title + strlen(title), sizeof title - strlen(title), " before line %u", play_word(&v->play, PPU_AT_NEXT_LINE));
    if (strcmp(title, v->title) != 0)
        SDL_SetWindowTitle(v->window, strcpy(v->title, title));
}

/* The screen in the middle of the window, as many whole times its size as there is room for. A window of a new size has a new surface. */
static void show(Viewer *v)
{
    SDL_Surface *surface = SDL_GetWindowSurface(v->window);
    if (!surface)
        fail("no window", SDL_GetError());
    int across = surface->w / SCREEN_WIDTH, down = surface->h / SCREEN_HEIGHT, scale = across < down ? across : down;
    scale = scale < 1 ? 1 : scale;
    int width = scale * SCREEN_WIDTH, height = scale * SCREEN_HEIGHT;
    SDL_Rect where = { (surface->w - width) / 2, (surface->h - height) / 2, width, height };
    screen_draw(&v->screen, &v->play, v->name, state(v), v->message);
    SDL_FillRect(surface, NULL, SDL_MapRGB(surface->format, BACKDROP >> 16, BACKDROP >> 8 & 255, BACKDROP & 255));
    SDL_BlitScaled(v->canvas, NULL, surface, &where);
    SDL_UpdateWindowSurface(v->window);
    set_title(v);
}

static void write_screen(Viewer *v)
{
    char name[sizeof v->message];
    snprintf(name, sizeof name, "screen-%lu-%u.bmp", v->play.pictures, play_word(&v->play, PPU_AT_NEXT_LINE));
    show(v); /* without the last message */
    int failed = SDL_SaveBMP(v->canvas, name);
    if (failed)
        fprintf(stderr, "viewer: %s: %s\n", name, SDL_GetError());
    snprintf(v->message, sizeof v->message, "%s", failed ? "NOT WRITTEN" : name);
}

/* Up to the line on which sprite 0 hits next; the panel says which. */
static void play_to_hit(Viewer *v)
{
    if (play_hit(&v->play))
        snprintf(v->message, sizeof v->message, "HIT ON LINE %u", play_word(&v->play, PPU_AT_NEXT_LINE) - 1);
    else
        snprintf(v->message, sizeof v->message, "NO HIT BEFORE THE END");
}

/* What a key does; 0 if it ends the viewer. */
static int press(Viewer *v, SDL_Keycode key)
{
    v->message[0] = 0;
    if (key == SDLK_q || key == SDLK_ESCAPE)
        return 0;
    if (key == SDLK_SPACE) {
        v->playing = !v->playing && !play_ended(&v->play);
    } else if (key == SDLK_n || key == SDLK_RIGHT) {
        v->playing = 0;
        play_picture(&v->play);
    } else if (key == SDLK_l || key == SDLK_DOWN) {
        v->playing = 0;
        play_line(&v->play);
    } else if (key == SDLK_h) {
        v->playing = 0;
        play_to_hit(v);
    } else if (key == SDLK_r) {
        play_start(&v->play, v->play.log, v->play.length, v->play.unit[PPU_AT_BOARD]);
    } else if (key == SDLK_s) {
        write_screen(v);
    }
    return 1;
}

static void play_on(Viewer *v)
{
    if (!play_picture(&v->play) || play_ended(&v->play))
        v->playing = 0;
    if (v->until && v->play.pictures >= v->until)
        v->playing = v->until = 0;
}

/* What has happened to the window: 0 if that ends the viewer. `changed` is set if the screen is to be shown anew. */
static int happened(Viewer *v, int *changed)
{
    SDL_Event event;
    while (SDL_PollEvent(&event)) {
        if (event.type == SDL_QUIT || (event.type == SDL_KEYDOWN && !press(v, event.key.keysym.sym)))
            return 0;
        *changed |= event.type == SDL_KEYDOWN || event.type == SDL_WINDOWEVENT;
    }
    return 1;
}

/* Looks for keys every few milliseconds and plays each picture when it is due; having been held up, it does not hurry to catch up.
   It does not wait by SDL_WaitEvent: with SDL 2.26 on X11 a key that closes the window can then end in an X error, BadWindow. */
static void watch(Viewer *v)
{
    Uint64 second = SDL_GetPerformanceFrequency(), due = SDL_GetPerformanceCounter();
    int changed = 1;
    while (happened(v, &changed)) {
        Uint64 now = SDL_GetPerformanceCounter();
        if (v->playing && now >= due) {
            play_on(v);
            due = (due + second / 10 < now ? now : due) + second / PICTURES_A_SECOND;
            changed = 1;
        }
        if (changed)
            show(v);
        changed = 0;
        SDL_Delay(v->playing ? 2 : 10);
    }
}

int main(int argc, char **argv)
{
    static Viewer v;
    (void)argc;
    Options o = options(argv);
    size_t length;
    uint8_t *log = read_file(o.log, &length);
    set_colours(&v.screen, o.palette);
    play_start(&v.play, log, length, o.board);
    if (ppu_number(v.play.answer) == PPU_BAD_UNIT)
        fail("--board", "a board byte is wanted, 0 to 4 or 8 to 12");
    v.name = strrchr(o.log, '/') ? strrchr(o.log, '/') + 1 : o.log;
    v.playing = !o.paused;
    v.until = o.until;
    open_window(&v, o.scale);
    watch(&v);
    SDL_FreeSurface(v.canvas);
    SDL_DestroyWindow(v.window);
    SDL_Quit();
    free(log);
    return 0;
}
