"""Other converters, and how each is told to convert the pictures of colours.py: R, G, B of full range to Y, Cb, Cr at 4:4:4 or back, 8 bits, no dither.

A converter's function works in a folder of its own, with `given` for the folder of those pictures, and answers with the name of the file that it made."""
import ctypes
import os
import shutil
import subprocess
from collections import namedtuple

import colours

# What is asked of a converter: which way, by which matrix code, and whether Y, Cb, Cr are of full range.
Job = namedtuple("Job", "way matrix is_full")

# `packages` are names of Debian packages, as patterns. `needs` are programs, or libraries by their file's name. `variants` are ways to call it that may
# or may not matter, each with words for it.
Converter = namedtuple("Converter", "name packages needs jobs variants convert")


def jobs(matrices, ranges):
    return [Job(way, matrix, is_full) for matrix in matrices for is_full in ranges for way in ("forward", "reverse")]


_NARROW_AND_FULL, _FULL = (False, True), (True,)
_LUMA = jobs((1, 6, 9), _NARROW_AND_FULL)


def _run(folder, *words):
    done = subprocess.run(words, cwd=folder, stdin=subprocess.DEVNULL, stdout=subprocess.PIPE, stderr=subprocess.STDOUT)
    if done.returncode:
        raise RuntimeError("%s\n%s" % (" ".join(words), done.stdout.decode(errors="replace")))


def _contents(*path):
    with open(os.path.join(*path), "rb") as file:
        return file.read()


def _write(data, *path):
    with open(os.path.join(*path), "wb") as file:
        file.write(data)


# ---- ffmpeg, by swscale and by zimg

_TO_Y4M = ["-strict", "-1", "-f", "yuv4mpegpipe", "out.y4m"]
_TO_PPM = ["-c:v", "ppm", "-f", "image2", "out.ppm"]


def _ffmpeg(job, given, folder, options, filters):
    source = os.path.join(given, "all.ppm" if job.way == "forward" else "all.yuv")
    raw = [] if job.way == "forward" else ["-f", "rawvideo", "-pix_fmt", "yuv444p", "-s", "%dx%d" % (colours.SIDE, colours.SIDE)]
    to = _TO_Y4M if job.way == "forward" else _TO_PPM
    _run(folder, "ffmpeg", "-v", "error", *options, *raw, "-i", source, "-vf", filters, *to)
    return to[-1]


def _swscale(job, variant, given, folder):
    flags, options = variant
    matrix = {1: "bt709", 6: "bt601", 9: "bt2020"}[job.matrix]
    color_range = "full" if job.is_full else "limited"
    if job.way == "forward":
        filters = "scale=out_color_matrix=%s:out_range=%s%s,format=yuv444p" % (matrix, color_range, flags)
    else:
        filters = "scale=in_color_matrix=%s:in_range=%s:out_range=full%s,format=rgb24" % (matrix, color_range, flags)
    return _ffmpeg(job, given, folder, options, filters)


_ACCURATE = ":flags=accurate_rnd+full_chroma_int+full_chroma_inp"
_SWSCALE_VARIANTS = {
    "no flags": ("", []),
    "accurate": (_ACCURATE, []),
    "bitexact": (_ACCURATE + "+bitexact", []),
    "no vector code": (_ACCURATE, ["-cpuflags", "0"]),
}


def _zscale(job, variant, given, folder):
    matrix = {1: "709", 6: "170m", 8: "ycgco", 9: "2020_ncl"}[job.matrix]
    color_range = "full" if job.is_full else "limited"
    if job.way == "forward":
        filters = "format=gbrp,zscale=matrixin=gbr:rangein=full:matrix=%s:range=%s:dither=none,format=yuv444p" % (matrix, color_range)
    else:
        filters = "zscale=matrixin=%s:rangein=%s:matrix=gbr:range=full:dither=none,format=gbrp,format=rgb24" % (matrix, color_range)
    return _ffmpeg(job, given, folder, [], filters)


# ---- GStreamer


def _gstreamer(job, variant, given, folder):
    """A colorimetry is range, matrix, transfer and primaries, by GStreamer's numbers: full range is 1, narrow 2; RGB is matrix 1."""
    rgb = "1:1:5:1"
    ycc = "%d:%d:5:1" % (1 if job.is_full else 2, {1: 3, 6: 4, 9: 6}[job.matrix])
    source, layout, given_as = ("all.rgb", "rgb", rgb) if job.way == "forward" else ("all.yuv", "y444", ycc)
    wanted = "Y444,colorimetry=%s" % ycc if job.way == "forward" else "RGB,colorimetry=%s" % rgb
    parse = "rawvideoparse format=%s width=%d height=%d framerate=25/1 colorimetry=%s" % (layout, colours.SIDE, colours.SIDE, given_as)
    read = "filesrc location=%s blocksize=%d" % (os.path.join(given, source), 3 * colours.COUNT)
    dither, before = variant
    pipeline = "%s ! %s ! videoconvert%s ! video/x-raw,format=%s ! filesink location=out.raw" % (read, parse, dither, wanted)
    _run(folder, *before, "gst-launch-1.0", "-q", *pipeline.split())
    if job.way == "forward":
        return "out.raw"
    _write(colours.ppm(_contents(folder, "out.raw")), folder, "out.ppm")
    return "out.ppm"


_GSTREAMER_VARIANTS = {
    "dither=none": (" dither=none", []),
    "as it comes": ("", []),
    "no vector code": (" dither=none", ["env", "ORC_CODE=backup"]),
}


# ---- libavif

_LOSSLESS = ["--min", "0", "--max", "0", "-s", "10", "-c", "aom"]


def _avif(job, variant, given, folder):
    """The converted planes are coded without loss. Back, the coded planes are seen to be the given ones before they are converted."""
    cicp = ["--cicp", "1/13/%d" % job.matrix]
    if job.way == "forward":
        color_range = "full" if job.is_full else "limited"
        _run(folder, "avifenc", "-y", "444", "-d", "8", "-r", color_range, *cicp, *_LOSSLESS, os.path.join(given, "all.png"), "out.avif")
        _run(folder, "avifdec", "out.avif", "out.y4m")
        return "out.y4m"
    source = os.path.join(given, "full.y4m" if job.is_full else "narrow.y4m")
    _run(folder, "avifenc", *cicp, *_LOSSLESS, source, "out.avif")
    _run(folder, "avifdec", "out.avif", "coded.y4m")
    if not _contents(folder, "coded.y4m").endswith(_contents(given, "all.yuv")):
        raise RuntimeError("avifenc did not code without loss")
    _run(folder, "avifdec", "--png-compress", "0", "out.avif", "out.png")
    _run(folder, "sh", "-c", "pngtopnm out.png >out.ppm")
    return "out.ppm"


# ---- ImageMagick


def _imagemagick(job, variant, given, folder):
    """A PPM has no word for Y, Cb, Cr. So where one is read or written as such its colour space is set, which converts nothing. No -depth is given: the
    picture has 8 bits before and after, while with `-depth 8` what has no room is cut off and not rounded."""
    space = {1: "Rec709YCbCr", 6: "Rec601YCbCr"}[job.matrix]
    steps = ["-colorspace", space, "-set", "colorspace", "sRGB"] if job.way == "forward" else ["-set", "colorspace", space, "-colorspace", "sRGB"]
    _run(folder, "/usr/bin/convert", os.path.join(given, "all.ppm"), *steps, "out.ppm")
    return "out.ppm"


# ---- libjpeg-turbo

_TURBOJPEG = "libturbojpeg.so.0"


def _turbojpeg(job, variant, given, folder):
    """What its TurboJPEG calls make of planes, without any JPEG between. Its first pixel format is RGB, and its first subsampling 4:4:4."""
    library = ctypes.CDLL(_TURBOJPEG)
    side, count = colours.SIDE, colours.COUNT
    library.tjInitCompress.restype = library.tjInitDecompress.restype = ctypes.c_void_p
    data = _contents(given, "all.rgb" if job.way == "forward" else "all.yuv")
    planes = [ctypes.create_string_buffer(data[i * count : (i + 1) * count], count) for i in range(3)]
    pointers = (ctypes.c_void_p * 3)(*map(ctypes.addressof, planes))
    pixels = ctypes.create_string_buffer(data, 3 * count)
    if job.way == "forward":
        failed = library.tjEncodeYUVPlanes(ctypes.c_void_p(library.tjInitCompress()), pixels, side, 0, side, 0, pointers, None, 0, 0)
        _write(b"".join(plane.raw for plane in planes), folder, "out.raw")
    else:
        failed = library.tjDecodeYUVPlanes(ctypes.c_void_p(library.tjInitDecompress()), pointers, None, 0, pixels, side, 0, side, 0, 0)
        _write(colours.ppm(pixels.raw), folder, "out.ppm")
    if failed:
        raise RuntimeError("TurboJPEG does not convert")
    return "out.raw" if job.way == "forward" else "out.ppm"


_ONE = {"": ""}
ALL = [
    Converter("swscale", ["ffmpeg", "libswscale[0-9]*"], ["ffmpeg"], _LUMA, _SWSCALE_VARIANTS, _swscale),
    Converter("zimg", ["ffmpeg", "libzimg[0-9]*"], ["ffmpeg"], _LUMA + jobs((8,), _FULL), _ONE, _zscale),
    Converter(
        "GStreamer",
        ["gstreamer1.0-tools", "gstreamer1.0-plugins-base"],
        ["gst-launch-1.0"],
        _LUMA,
        _GSTREAMER_VARIANTS,
        _gstreamer,
    ),
    Converter(
        "libavif",
        ["libavif-bin", "libavif[0-9]*", "libyuv[0-9]*", "netpbm"],
        ["avifenc", "avifdec", "pngtopnm"],
        _LUMA + jobs((0, 8), _FULL),
        _ONE,
        _avif,
    ),
    Converter("ImageMagick", ["imagemagick-[0-9].q16"], ["/usr/bin/convert"], jobs((1, 6), _FULL), _ONE, _imagemagick),
    Converter("libjpeg-turbo", ["libturbojpeg0"], [_TURBOJPEG], jobs((6,), _FULL), _ONE, _turbojpeg),
]


def _is_there(name):
    if ".so" not in name:
        return shutil.which(name) is not None
    try:
        ctypes.CDLL(name)
    except OSError:
        return False
    return True


def missing(converter):
    return [name for name in converter.needs if not _is_there(name)]
