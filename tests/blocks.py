#!/usr/bin/env python3
"""tests/blocks.py [PROGRAM..]: what `edid --json` writes, each by hand: the names of data blocks from the tables of CTA-861-I (7.4, tag
codes and extended tag codes), HDMI 1.4b (8.3.2), HDMI 2.1 (10.3) and Dolby's identifier, the fields of data blocks (7.5), and those of the
base block from VESA E-EDID Release A, revision 2 (EDID 1.4), sections 3.3 to 3.11. In each example each bit stands in one field, in order,
and has its value. PROGRAM is as for tests/examples.py. The last line is 'blocks: N passed, M failed', and the status is 0 where M is 0."""
import glob
import json
import os
import subprocess
import sys

from built import TOP, fails_told

# What a data block begins with, after the byte of its tag and length: an extended tag, or the number of who defined it, its last
# byte first; and the block's name.
TAGS = [
    (1, "", "Audio Data Block"),
    (2, "", "Video Data Block"),
    (3, "563412", "Vendor-Specific Data Block"),
    (3, "030c00", "HDMI Vendor-Specific Data Block"),
    (3, "d85dc4", "HDMI Forum Vendor-Specific Data Block"),
    (4, "", "Speaker Allocation Data Block"),
    (5, "", "VESA Display Transfer Characteristic Data Block"),
    (6, "", "Video Format Data Block"),
    (7, "00", "Video Capability Data Block"),
    (7, "01563412", "Vendor-Specific Video Data Block"),
    (7, "0146d000", "Dolby Vision Vendor-Specific Video Data Block"),
    (7, "02", "VESA Display Device Data Block"),
    (7, "03", "VESA Video Timing Block Extension"),
    (7, "05", "Colorimetry Data Block"),
    (7, "06", "HDR Static Metadata Data Block"),
    (7, "07", "HDR Dynamic Metadata Data Block"),
    (7, "08", "Native Video Resolution Data Block"),
    (7, "0d", "Video Format Preference Data Block"),
    (7, "0e", "YCbCr 4:2:0 Video Data Block"),
    (7, "0f", "YCbCr 4:2:0 Capability Map Data Block"),
    (7, "11563412", "Vendor-Specific Audio Data Block"),
    (7, "12", "HDMI Audio Data Block"),
    (7, "13", "Room Configuration Data Block"),
    (7, "14", "Speaker Location Data Block"),
    (7, "20", "InfoFrame Data Block"),
    (7, "22", "DisplayID Type VII Video Timing Data Block"),
    (7, "23", "DisplayID Type VIII Video Timing Data Block"),
    (7, "2a", "DisplayID Type X Video Timing Data Block"),
    (7, "78", "HDMI Forum EDID Extension Override Data Block"),
    (7, "79", "HDMI Forum Sink Capability Data Block"),
]

# The bytes with which both lengths of version 1 of Dolby Vision begin.
DOLBY_VISION_1 = """5 4 2 DM_Version
5 1 1 2160p60
5 0 0 YCbCr 4:2:2 at 12 bits
6 7 1 Target max luminance
6 0 0 Global_Dimming
7 7 1 Target min luminance
7 0 0 Colorimetry
"""

# Data blocks, each with its fields: the byte as the standards count it, where the byte of tag and length is byte 0, the highest bit and
# the lowest one, and the name. What the standards give no name has one of this profile's own.
FIELDS = [
    # HDMI 1.4b, tables 8-16 and H-2 to H-5: all latencies, two codes' worth of 3D, and an entry with a detail
    (3, "030c00 1000 f8 3c e0 0102 0304 c0 26 01 0041 0003 0810", """
4 7 0 address high
5 7 0 address low
6 7 7 Supports_AI
6 6 6 DC_48bit
6 5 5 DC_36bit
6 4 4 DC_30bit
6 3 3 DC_Y444
6 2 1 reserved
6 0 0 DVI_Dual
7 7 0 Max_TMDS_Clock
8 7 7 Latency_Fields_Present
8 6 6 I_Latency_Fields_Present
8 5 5 HDMI_Video_present
8 4 4 reserved bit 4
8 3 3 game content
8 2 2 cinema content
8 1 1 photo content
8 0 0 graphics content
9 7 0 Video_Latency
10 7 0 Audio_Latency
11 7 0 Interlaced_Video_Latency
12 7 0 Interlaced_Audio_Latency
13 7 7 3D_present
13 6 5 3D_Multi_present
13 4 3 Image_Size
13 2 0 reserved
14 7 5 HDMI_VIC_LEN
14 4 0 HDMI_3D_LEN
15 7 0 HDMI_VIC
16 7 7 structure 15
16 6 6 structure 14
16 5 5 structure 13
16 4 4 structure 12
16 3 3 structure 11
16 2 2 structure 10
16 1 1 structure 9
16 0 0 structure 8
17 7 7 structure 7
17 6 6 structure 6
17 5 5 structure 5
17 4 4 structure 4
17 3 3 structure 3
17 2 2 structure 2
17 1 1 structure 1
17 0 0 structure 0
18 7 0 3D_MASK high
19 7 0 3D_MASK low
20 7 4 2D_VIC_order
20 3 0 3D_Structure
21 7 4 3D_Detail
21 3 0 reserved
"""),
    # a form of 3D that the standard keeps
    (3, "030c00 1000 00 00 20 e0 01 05", """
11 7 0 of the reserved form
"""),
    # HDMI 2.1, 10.3.2
    (3, "d85dc4 01 78 ff 6f ff c1 78 ff 66 0f", """
4 7 0 Version
5 7 0 Max_TMDS_Character_Rate
6 7 7 SCDC_Present
6 6 6 read request
6 5 5 cable status
6 4 4 CCBPCI
6 3 3 scrambling up to 340 MHz
6 2 2 3D independent view
6 1 1 3D dual view
6 0 0 3D OSD disparity
7 7 4 Max_FRL_Rate
7 3 3 UHD VIC
7 2 2 4:2:0 at 48 bits a pixel
7 1 1 4:2:0 at 36 bits a pixel
7 0 0 4:2:0 at 30 bits a pixel
8 7 7 FAPA end extended
8 6 6 QMS
8 5 5 Mdelta
8 4 4 cinema VRR
8 3 3 negative Mvrr
8 2 2 FVA
8 1 1 ALLM
8 0 0 FAPA in blanking
9 7 6 VRR_max high
9 5 0 VRR_min
10 7 0 VRR_max low
11 7 7 DSC 1.2a
11 6 6 DSC in 4:2:0
11 5 5 QMS TFR max
11 4 4 QMS TFR min
11 3 3 DSC at each 1/16 bit a pixel
11 2 2 DSC at 16 bits
11 1 1 DSC at 12 bits
11 0 0 DSC at 10 bits
12 7 4 DSC_Max_FRL_Rate
12 3 0 DSC_MaxSlices
13 7 6 reserved
13 5 0 DSC_TotalChunkKBytes
"""),
    # the same in a block of its own, after two bytes that the standard keeps
    (7, "79 0000 01 78 80", """
2 7 0 reserved 1
3 7 0 reserved 2
4 7 0 Version
5 7 0 Max_TMDS_Character_Rate
6 7 7 SCDC_Present
"""),
    # CTA-861-I, 7.5.13
    (7, "06 ff ff 10 20 30", """
2 7 7 ET_7
2 6 6 ET_6
2 5 5 ET_5
2 4 4 ET_4
2 3 3 hybrid log-gamma
2 2 2 SMPTE ST 2084
2 1 1 traditional gamma HDR
2 0 0 traditional gamma SDR
3 7 7 SM_7
3 6 6 SM_6
3 5 5 SM_5
3 4 4 SM_4
3 3 3 SM_3
3 2 2 SM_2
3 1 1 SM_1
3 0 0 SM_0
4 7 0 Desired Content Max Luminance
5 7 0 Desired Content Max Frame-average Luminance
6 7 0 Desired Content Min Luminance
"""),
    # 7.5.3
    (4, "ffff1f", """
1 7 7 FLw FRw
1 6 6 RLC RRC
1 5 5 FLc FRc
1 4 4 BC
1 3 3 BL BR
1 2 2 FC
1 1 1 LFE
1 0 0 FL FR
2 7 7 TpSiL TpSiR
2 6 6 SiL SiR
2 5 5 TpBC
2 4 4 LFE2
2 3 3 LS RS
2 2 2 TpFC
2 1 1 TpC
2 0 0 TpFL TpFR
3 7 7 reserved 23
3 6 6 reserved 22
3 5 5 reserved 21
3 4 4 LSd RSd
3 3 3 TpLS TpRS
3 2 2 BtFL BtFR
3 1 1 BtFC
3 0 0 TpBL TpBR
"""),
    # 7.5.6, 7.5.5, 7.5.11, 7.5.12
    (7, "00 ff", """
2 7 7 QY
2 6 6 QS
2 5 4 S_PT
2 3 2 S_IT
2 1 0 S_CE
"""),
    (7, "05 ffff", """
2 7 7 BT2020RGB
2 6 6 BT2020YCC
2 5 5 BT2020cYCC
2 4 4 opRGB
2 3 3 opYCC601
2 2 2 sYCC601
2 1 1 xvYCC709
2 0 0 xvYCC601
3 7 7 DCI-P3
3 6 6 ICtCp
3 5 5 sRGB
3 4 4 default RGB
3 3 3 gamut metadata 3
3 2 2 gamut metadata 2
3 1 1 gamut metadata 1
3 0 0 gamut metadata 0
"""),
    (7, "0f ff", """
2 7 7 bit 7
2 6 6 bit 6
2 5 5 bit 5
2 4 4 bit 4
2 3 3 bit 3
2 2 2 bit 2
2 1 1 bit 1
2 0 0 bit 0
"""),
    (7, "0d 91", """
2 7 0 SVR
"""),
    # 7.5.2, by the format: linear PCM, Enhanced AC-3, MAT, DTS-HD; and by the extension of codes: MPEG-4 HE AAC and AAC LC with MPEG Surround,
    # MPEG-H 3D, AC-4, linear PCM 3D, and one that the standard keeps
    (1, "090707", """
1 7 7 F17
1 6 3 Audio Format Code
1 2 0 channels less one
2 7 7 F27
2 6 0 sampling frequencies
3 7 3 reserved
3 2 0 sample sizes
"""),
    (1, "570703", """
3 7 2 reserved
3 1 0 joint object coding
"""),
    (1, "670701", """
3 7 2 reserved
3 1 0 MAT
"""),
    (1, "5f07ff", """
3 7 0 of the format
"""),
    (1, "7f7f41", """
3 7 3 Audio Format Extension
3 2 1 frames
3 0 0 surround
"""),
    (1, "7f7f51", """
3 7 3 Audio Format Extension
3 2 1 frames
3 0 0 surround
"""),
    (1, "7f7f5b", """
3 7 3 Audio Format Extension
3 2 0 level
"""),
    (1, "7f7f61", """
3 7 3 Audio Format Extension
3 2 0 of the format
"""),
    (1, "7f7f6f", """
3 7 3 Audio Format Extension
3 2 0 sample sizes
"""),
    (1, "7f7f77", """
3 7 3 Audio Format Extension
3 2 0 of the format
"""),
    # Dolby Vision, of version 1 in seven and in ten bytes, of version 2, and of two versions of which only the bytes are told
    (7, "01 46d000 2f c9 13 5d 21 41 a9", """
5 7 5 version
""" + DOLBY_VISION_1 + """8 7 5 blue x
8 4 2 blue y
8 1 0 low latency
9 7 1 green x
9 0 0 red y bit 0
10 7 1 green y
10 0 0 red y bit 1
11 7 3 red x
11 2 0 red y high
"""),
    (7, "01 46d000 2f c9 13 00 aa 50 40 b0 26 0f", DOLBY_VISION_1 + """8 7 0 reserved byte
9 7 0 red x
10 7 0 red y
11 7 0 green x
12 7 0 green y
13 7 0 blue x
14 7 0 blue y
"""),
    (7, "01 46d000 4b 2d 4a 59 3d a2 b1", """
5 4 2 DM_Version
5 1 1 backlight control
5 0 0 YCbCr 4:2:2 at 12 bits
6 7 3 Target min PQ
6 2 2 Global_Dimming
6 1 0 Backlight Min Luma
7 7 3 Target max PQ
7 2 2 reserved
7 1 0 interface
8 7 1 green x
8 0 0 12b 4:4:4
9 7 1 green y
9 0 0 10b 4:4:4
10 7 3 red x
10 2 0 blue x
11 7 3 red y
11 2 0 blue y
"""),
    (7, "01 46d000 01 02", """
5 4 0 low bits
6 7 0 of the version
"""),
    (7, "01 46d000 61 02", """
5 4 0 low bits
6 7 0 of the version
"""),
]

# A data block, its tag and what follows, and what is written of it: its part with its first byte, its bytes, how many are missing and
# left over, and its name; then its fields: byte, highest and lowest bit, value, what is found, name | meaning. Video capability (CTA-861-H,
# 7.5.6), a video code that is reserved and one that is native (7.5.1), a vendor's block with no table, an extended tag that is reserved,
# the HDMI Forum's count of extensions without its byte and with one left over (HDMI 2.1, 10.3.7), and blocks that are cut.
BLOCKS = [
    (7, "00cf", """part 4 e200cf 0 0 Video Capability Data Block
4 7 5 7 - Tag Code | extended
4 4 0 2 - Length |
5 7 0 0 - Extended Tag Code | Video Capability Data Block
6 7 7 1 - QY | YCC range selectable
6 6 6 1 - QS | RGB range selectable
6 5 4 0 - S_PT |
6 3 2 3 - S_IT | over- or underscanned
6 1 0 3 - S_CE | over- or underscanned
"""),
    (2, "8090", """part 4 428090 0 0 Video Data Block
4 7 5 2 - Tag Code | Video Data Block
4 4 0 2 - Length |
5 7 0 128 reserved SVD | reserved
6 7 0 144 - SVD | native
"""),
    (3, "1a000005", """part 4 641a000005 0 0 Vendor-Specific Data Block
4 7 5 3 - Tag Code | Vendor-Specific Data Block
4 4 0 4 - Length |
5 7 0 26 - IEEE OUI, bits 7 to 0 |
6 7 0 0 - IEEE OUI, bits 15 to 8 |
7 7 0 0 - IEEE OUI, bits 23 to 16 |
8 7 0 5 - payload |
"""),
    (7, "ff", """part 4 e1ff 0 0 reserved
4 7 5 7 - Tag Code | extended
4 4 0 1 - Length |
5 7 0 255 reserved Extended Tag Code | reserved
"""),
    (7, "78", """part 4 e178 1 0 HDMI Forum EDID Extension Override Data Block
4 7 5 7 - Tag Code | extended
4 4 0 1 - Length |
5 7 0 120 - Extended Tag Code | HDMI Forum EDID Extension Override Data Block
"""),
    (7, "780111", """part 4 e3780111 0 1 HDMI Forum EDID Extension Override Data Block
4 7 5 7 - Tag Code | extended
4 4 0 3 - Length |
5 7 0 120 - Extended Tag Code | HDMI Forum EDID Extension Override Data Block
6 7 0 1 - EEODB |
7 7 0 17 left left over |
"""),
    (7, "01", """part 4 e101 3 0 Vendor-Specific Video Data Block
4 7 5 7 - Tag Code | extended
4 4 0 1 - Length |
5 7 0 1 - Extended Tag Code | Vendor-Specific Video Data Block
"""),
    (7, "", """part 4 e0 1 0 extended
4 7 5 7 - Tag Code | extended
4 4 0 0 - Length |
"""),
]

# Bytes that are put into the base block of an example, and what is written of some of them then: fields as above, of the base block.
THREE, FOUR = "living-room", "monitor-1.4"
BASE = [
    # 3.3, 3.4: the header, the maker CMN, product and serial number, week 1 of 2012
    (FOUR, 0, "", """0 7 0 0 - Header, byte 0 |
1 7 0 255 - Header, byte 1 |
7 7 0 0 - Header, byte 7 |
"""),
    (FOUR, 8, "0dae 3412 78563412 0116", """8 7 7 0 - ID Manufacturer Name, bit 15 |
8 6 2 3 - ID Manufacturer Name, first letter |
8 1 0 1 - ID Manufacturer Name, second letter, bits 4 to 3 |
9 7 5 5 - ID Manufacturer Name, second letter, bits 2 to 0 |
9 4 0 14 - ID Manufacturer Name, third letter |
10 7 0 52 - ID Product Code, bits 7 to 0 |
11 7 0 18 - ID Product Code, bits 15 to 8 |
12 7 0 120 - ID Serial Number, bits 7 to 0 |
13 7 0 86 - ID Serial Number, bits 15 to 8 |
14 7 0 52 - ID Serial Number, bits 23 to 16 |
15 7 0 18 - ID Serial Number, bits 31 to 24 |
16 7 0 1 - Week of Manufacture |
17 7 0 22 - Year of Manufacture or Model Year, less 1990 |
"""),
    (FOUR, 16, "00", "16 7 0 0 - Week of Manufacture | not specified\n"),
    (FOUR, 16, "36", "16 7 0 54 - Week of Manufacture |\n"),
    (FOUR, 16, "37", "16 7 0 55 reserved Week of Manufacture | reserved\n"),
    (FOUR, 16, "ff", "16 7 0 255 - Week of Manufacture | a model year\n"),
    # 3.5, 3.6.1: revision 1.4, eight bits a color, DisplayPort
    (FOUR, 18, "0104a5", """18 7 0 1 - EDID Version Number |
19 7 0 4 - EDID Revision Number |
20 7 7 1 - Video Signal Interface | digital
20 6 4 2 - Color Bit Depth | 8 bits
20 3 0 5 - Digital Video Interface Standard | DisplayPort
"""),
    (FOUR, 20, "f6", """20 7 7 1 - Video Signal Interface | digital
20 6 4 7 reserved Color Bit Depth | reserved
20 3 0 6 reserved Digital Video Interface Standard | reserved
"""),
    (FOUR, 20, "2f", """20 7 7 0 - Video Signal Interface | analog
20 6 5 1 - Signal Level Standard | 0.714 and 0.286 V
20 4 4 0 - Video Setup | blank level is black level
20 3 3 1 - Separate Sync H & V Signals | supported
20 2 2 1 - Composite Sync Signal on Horizontal | supported
20 1 1 1 - Composite Sync Signal on Green Video | supported
20 0 0 1 - Serration on the Vertical Sync | supported
"""),
    # Of revision 1.3 bits 6 to 1 of a digital input are reserved, bit 0 is DFP 1.x
    (THREE, 20, "81", """20 7 7 1 - Video Signal Interface | digital
20 6 1 0 - reserved |
20 0 0 1 - DFP 1.x | compatible
"""),
    (THREE, 20, "82", """20 7 7 1 - Video Signal Interface | digital
20 6 1 1 reserved reserved | reserved
20 0 0 0 - DFP 1.x |
"""),
    # 3.6.2, 3.6.3: 60 by 34 cm, gamma 2.2, or one in an extension
    (FOUR, 21, "3c2278", """21 7 0 60 - Horizontal Screen Size or Aspect Ratio |
22 7 0 34 - Vertical Screen Size or Aspect Ratio |
23 7 0 120 - Display Transfer Characteristic |
"""),
    (FOUR, 23, "ff", "23 7 0 255 - Display Transfer Characteristic | in an extension\n"),
    # 3.6.4: of a digital display of 1.4 bits 4 and 3 are encodings, of 1.3 and of an analog one they are its color type
    (FOUR, 24, "fa", """24 7 7 1 - Standby | supported
24 6 6 1 - Suspend | supported
24 5 5 1 - Active Off | supported
24 4 3 3 - Supported Color Encoding Format | RGB 4:4:4, YCrCb 4:4:4, YCrCb 4:2:2
24 2 2 0 - sRGB |
24 1 1 1 - Preferred Timing Mode | native
24 0 0 0 - Continuous Frequency |
"""),
    (THREE, 24, "0f", """24 7 7 0 - Standby |
24 6 6 0 - Suspend |
24 5 5 0 - Active Off |
24 4 3 1 - Display Color Type | RGB color
24 2 2 1 - sRGB | default color space
24 1 1 1 - Preferred Timing Mode | first detailed timing
24 0 0 1 - Default GTF | supported
"""),
    # 3.7: red at x 0x2a5, y 0x155
    (FOUR, 25, "91 00 a9 55", """25 7 6 2 - Red x, bits 1 to 0 |
25 5 4 1 - Red y, bits 1 to 0 |
25 3 2 0 - Green x, bits 1 to 0 |
25 1 0 1 - Green y, bits 1 to 0 |
26 7 6 0 - Blue x, bits 1 to 0 |
26 5 4 0 - Blue y, bits 1 to 0 |
26 3 2 0 - White x, bits 1 to 0 |
26 1 0 0 - White y, bits 1 to 0 |
27 7 0 169 - Red x, bits 9 to 2 |
28 7 0 85 - Red y, bits 9 to 2 |
"""),
    # 3.8
    (FOUR, 35, "a50801", """35 7 7 1 - 720x400 at 70 Hz | supported
35 6 6 0 - 720x400 at 88 Hz |
35 5 5 1 - 640x480 at 60 Hz | supported
35 4 4 0 - 640x480 at 67 Hz |
35 3 3 0 - 640x480 at 72 Hz |
35 2 2 1 - 640x480 at 75 Hz | supported
35 1 1 0 - 800x600 at 56 Hz |
35 0 0 1 - 800x600 at 60 Hz | supported
36 7 7 0 - 800x600 at 72 Hz |
36 6 6 0 - 800x600 at 75 Hz |
36 5 5 0 - 832x624 at 75 Hz |
36 4 4 0 - 1024x768 at 87 Hz interlaced |
36 3 3 1 - 1024x768 at 60 Hz | supported
36 2 2 0 - 1024x768 at 70 Hz |
36 1 1 0 - 1024x768 at 75 Hz |
36 0 0 0 - 1280x1024 at 75 Hz |
37 7 7 0 - 1152x870 at 75 Hz |
37 6 0 1 - manufacturer's timings |
"""),
    # 3.9: 1920 pixels, 16:9, 60 Hz; no timing; a first byte of 0 is reserved
    (FOUR, 38, "d1c0 0101 0040", """38 7 0 209 - Standard Timing, pixels a line / 8 - 31 |
39 7 6 3 - Image Aspect Ratio | 16:9
39 5 0 0 - Field Refresh Rate less 60 Hz |
40 7 0 1 - Standard Timing, pixels a line | unused
41 7 0 1 - Standard Timing | unused
42 7 0 0 reserved Standard Timing, pixels a line / 8 - 31 | reserved
43 7 6 1 - Image Aspect Ratio | 4:3
43 5 0 0 - Field Refresh Rate less 60 Hz |
"""),
    # 3.10.2: 1920 by 1080 at 148.5 MHz (CTA-861, video code 16), its sync, and one by digital composite sync
    (FOUR, 54, "023a801871382d40582c4500c48e2100001e", """54 7 0 2 - Pixel Clock / 10 kHz, bits 7 to 0 |
55 7 0 58 - Pixel Clock / 10 kHz, bits 15 to 8 |
56 7 0 128 - Horizontal Addressable Video, bits 7 to 0 |
57 7 0 24 - Horizontal Blanking, bits 7 to 0 |
58 7 4 7 - Horizontal Addressable Video, bits 11 to 8 |
58 3 0 1 - Horizontal Blanking, bits 11 to 8 |
59 7 0 56 - Vertical Addressable Video, bits 7 to 0 |
60 7 0 45 - Vertical Blanking, bits 7 to 0 |
61 7 4 4 - Vertical Addressable Video, bits 11 to 8 |
61 3 0 0 - Vertical Blanking, bits 11 to 8 |
62 7 0 88 - Horizontal Front Porch, bits 7 to 0 |
63 7 0 44 - Horizontal Sync Pulse Width, bits 7 to 0 |
64 7 4 4 - Vertical Front Porch, bits 3 to 0 |
64 3 0 5 - Vertical Sync Pulse Width, bits 3 to 0 |
65 7 6 0 - Horizontal Front Porch, bits 9 to 8 |
65 5 4 0 - Horizontal Sync Pulse Width, bits 9 to 8 |
65 3 2 0 - Vertical Front Porch, bits 5 to 4 |
65 1 0 0 - Vertical Sync Pulse Width, bits 5 to 4 |
66 7 0 196 - Horizontal Image Size, bits 7 to 0 |
67 7 0 142 - Vertical Image Size, bits 7 to 0 |
68 7 4 2 - Horizontal Image Size, bits 11 to 8 |
68 3 0 1 - Vertical Image Size, bits 11 to 8 |
69 7 0 0 - Horizontal Border |
70 7 0 0 - Vertical Border |
71 7 7 0 - Signal Interface Type | non-interlaced
71 6 5 0 - Stereo Viewing Support, bits 2 to 1 | normal display
71 4 3 3 - Sync Signal | digital separate
71 2 2 1 - Vertical Sync | positive
71 1 1 1 - Horizontal Sync | positive
71 0 0 0 - Stereo Viewing Support, bit 0 |
"""),
    (FOUR, 71, "96", """71 7 7 1 - Signal Interface Type | interlaced
71 6 5 0 - Stereo Viewing Support, bits 2 to 1 | normal display
71 4 3 2 - Sync Signal | digital composite
71 2 2 1 - Serrations | horizontal sync during vertical sync
71 1 1 1 - Horizontal Sync | positive
71 0 0 0 - Stereo Viewing Support, bit 0 |
"""),
    # 3.10.3: a name; a reserved tag; a byte that is reserved
    (FOUR, 90, "000000fc00 41", """90 7 0 0 - Indication, byte 0 |
91 7 0 0 - Indication, byte 1 |
92 7 0 0 - Reserved, byte 2 |
93 7 0 252 - Display Descriptor Tag | Display Product Name
94 7 0 0 - Reserved, byte 4 |
95 7 0 65 - character |
"""),
    (FOUR, 90, "000001110509", """92 7 0 1 reserved Reserved, byte 2 | reserved
93 7 0 17 reserved Display Descriptor Tag | reserved
94 7 0 5 - byte |
95 7 0 9 - byte |
"""),
    # 3.10.3.3: limits of 49 to 75 Hz and 30 to 83 kHz (255 more by an offset), 170 MHz, no other timings
    (FOUR, 108, "000000fd08 314b1e5311 01 0a202020202020", """112 7 4 0 - Reserved, byte 4 |
112 3 2 2 - Horizontal Rate Offsets | greatest rate and 255
112 1 0 0 - Vertical Rate Offsets | zero
113 7 0 49 - Minimum Vertical Rate |
114 7 0 75 - Maximum Vertical Rate |
115 7 0 30 - Minimum Horizontal Rate |
116 7 0 83 - Maximum Horizontal Rate |
117 7 0 17 - Maximum Pixel Clock / 10 MHz |
118 7 0 1 - Video Timing Support Flags | Range Limits Only
119 7 0 10 - Line Feed |
120 7 0 32 - Space |
"""),
    # 3.10.3.3.3: CVT 1.1, 4:3 and 16:9, 16:9 preferred, reduced blanking, 60 Hz
    (FOUR, 118, "04 11 0400c0 300 0 3c", """118 7 0 4 - Video Timing Support Flags | CVT
119 7 4 1 - CVT version |
119 3 0 1 - CVT revision |
120 7 2 1 - Additional Precision Pixel Clock |
120 1 0 0 - Maximum Active Pixels a Line, bits 9 to 8 |
121 7 0 0 - Maximum Active Pixels a Line, bits 7 to 0 |
122 7 7 1 - Aspect Ratio 4:3 | supported
122 6 6 1 - Aspect Ratio 16:9 | supported
122 5 5 0 - Aspect Ratio 16:10 |
122 4 4 0 - Aspect Ratio 5:4 |
122 3 3 0 - Aspect Ratio 15:9 |
122 2 0 0 - Reserved, byte 14 |
123 7 5 1 - Preferred Aspect Ratio | 16:9
123 4 4 1 - CVT Reduced Blanking | supported
123 3 3 0 - CVT Standard Blanking |
123 2 0 0 - Reserved, byte 15 |
124 7 7 0 - Horizontal Shrink |
124 6 6 0 - Horizontal Stretch |
124 5 5 0 - Vertical Shrink |
124 4 4 0 - Vertical Stretch |
124 3 0 0 - Reserved, byte 16 |
125 7 0 60 - Preferred Vertical Refresh Rate |
"""),
    # 3.10.3.5, 3.10.3.6, 3.10.3.8, 3.10.3.9, 3.10.3.11
    (FOUR, 90, "000000fb00 01 09 50 54 78 02 1a", """93 7 0 251 - Display Descriptor Tag | Color Point Data
95 7 0 1 - White Point Index Number |
96 7 4 0 - Reserved |
96 3 2 2 - White x, bits 1 to 0 |
96 1 0 1 - White y, bits 1 to 0 |
97 7 0 80 - White x, bits 9 to 2 |
98 7 0 84 - White y, bits 9 to 2 |
99 7 0 120 - Gamma |
100 7 0 2 - White Point Index Number |
101 7 4 1 reserved Reserved | reserved
101 3 2 2 - White x, bits 1 to 0 |
101 1 0 2 - White y, bits 1 to 0 |
"""),
    (FOUR, 90, "000000fa00 d1c0 0101", """93 7 0 250 - Display Descriptor Tag | Standard Timing Identifications
95 7 0 209 - Standard Timing, pixels a line / 8 - 31 |
96 7 6 3 - Image Aspect Ratio | 16:9
96 5 0 0 - Field Refresh Rate less 60 Hz |
97 7 0 1 - Standard Timing, pixels a line | unused
98 7 0 1 - Standard Timing | unused
"""),
    (FOUR, 90, "000000f800 01 1b2428", """93 7 0 248 - Display Descriptor Tag | CVT 3 Byte Timing Codes
95 7 0 1 - Version Number |
96 7 0 27 - Addressable Lines, bits 7 to 0 |
97 7 4 2 - Addressable Lines, bits 11 to 8 |
97 3 2 1 - Aspect Ratio | 16:9
97 1 0 0 - Reserved |
98 7 7 0 - Reserved |
98 6 5 1 - Preferred Vertical Rate | 60 Hz
98 4 4 0 - 50 Hz |
98 3 3 1 - 60 Hz | supported
98 2 2 0 - 75 Hz |
98 1 1 0 - 85 Hz |
98 0 0 0 - 60 Hz with reduced blanking |
"""),
    (FOUR, 90, "000000f700 0a 01 80", """93 7 0 247 - Display Descriptor Tag | Established Timings III
95 7 0 10 - Revision Number |
96 7 7 0 - 640x350 at 85 Hz |
96 6 6 0 - 640x400 at 85 Hz |
96 5 5 0 - 720x400 at 85 Hz |
96 4 4 0 - 640x480 at 85 Hz |
96 3 3 0 - 848x480 at 60 Hz |
96 2 2 0 - 800x600 at 85 Hz |
96 1 1 0 - 1024x768 at 85 Hz |
96 0 0 1 - 1152x864 at 75 Hz | supported
97 7 7 1 - 1280x768 at 60 Hz with reduced blanking | supported
97 6 6 0 - 1280x768 at 60 Hz |
97 5 5 0 - 1280x768 at 75 Hz |
97 4 4 0 - 1280x768 at 85 Hz |
97 3 3 0 - 1280x960 at 60 Hz |
97 2 2 0 - 1280x960 at 85 Hz |
97 1 1 0 - 1280x1024 at 60 Hz |
97 0 0 0 - 1280x1024 at 85 Hz |
"""),
    (FOUR, 90, "0000001000 00 01", """93 7 0 16 - Display Descriptor Tag | dummy
95 7 0 0 - byte |
96 7 0 1 reserved byte | reserved
"""),
    (FOUR, 126, "", "126 7 0 1 - Extension Block Count N |\n"),
]

# Tags of display descriptors, and the names of their parts (E-EDID 1.4, table 3.23). A tag from 00 to 0F is the maker's own, and one
# from 11 to F6 is reserved.
DESCRIPTORS = """ff Display Descriptor, text
fe Display Descriptor, text
fd Display Range Limits
fc Display Descriptor, text
fb Color Point Data
fa Standard Timing Identifications
f9 Display Color Management Data
f8 CVT 3 Byte Timing Codes
f7 Established Timings III
f6 Display Descriptor
11 Display Descriptor
10 Dummy Descriptor
0f Display Descriptor
00 Display Descriptor
"""

# Parts of blocks of 128 bytes: the number of the block, the first byte, how many it has, and the name.
PARTS = """0 0 8 Header
0 8 10 Vendor & Product Identification
0 18 7 EDID Structure Version & Revision, Basic Display Parameters & Features
0 25 10 Color Characteristics
0 35 3 Established Timings
0 38 16 Standard Timings
0 54 18 Detailed Timing Descriptor
0 72 18 Display Descriptor, text
0 90 18 Display Descriptor, text
0 108 18 Display Range Limits
0 126 1 Extension Block Count N
0 127 1 Checksum C
1 0 4 CTA Extension
1 4 6 Video Data Block
1 10 4 Audio Data Block
1 14 4 Speaker Allocation Data Block
1 18 3 Video Capability Data Block
1 21 18 Detailed Timing Descriptor
1 39 88 padding
1 127 1 Checksum C
"""


def summed(block):
    """A block of 128 bytes with its checksum."""
    return block[:127] + bytes([-sum(block[:127]) % 256])


def example(name):
    with open(os.path.join(TOP, "examples/%s.edid" % name), "rb") as file:
        return file.read()


def objects_of(program, data):
    """The objects of `edid --json`, and what is said."""
    ran = subprocess.run([program, "edid", "--json"], input=data, capture_output=True, timeout=60)
    return [json.loads(line) for line in ran.stdout.splitlines()], ran.stderr.decode()


def row(it):
    """An object as above."""
    if it["type"] == "part":
        return "part %d %s %d %d %s" % (it["byte"], it["bytes"], it["cut"], it["left"], it["name"])
    said = it["byte"], it["high"], it["low"], it["value"], it["found"] or "-", it["name"], it["meaning"]
    return ("%d %d %d %d %s %s | %s" % said).rstrip()


def with_blocks(blocks):
    """An EDID whose extension has these data blocks."""
    front = bytes([2, 3, 4 + len(blocks), 0x70]) + blocks
    return example(THREE)[:128] + summed(front + bytes(128 - len(front)))


def data_block(tag, payload):
    payload = bytes.fromhex(payload)
    return bytes([tag << 5 | len(payload)]) + payload


def names_fail(program):
    """Data blocks that have another name, where an HDMI block stands after them."""
    for tag, begin, name in TAGS:
        objects, err = objects_of(program, with_blocks(data_block(tag, begin) + bytes.fromhex("65030c001000")))
        names = [it["name"] for it in objects if it["type"] == "part" and (it["block"], it["byte"]) == (1, 4)]
        yield names == [name] or "%d %s: %s, and it is %s %s" % (tag, begin, name, names, err)


def fields_fail(program):
    """Fields of data blocks that have other bits or another name."""
    for tag, begin, rows in FIELDS:
        objects, err = objects_of(program, with_blocks(data_block(tag, begin) + bytes.fromhex("65030c001000")))
        fields = {(it["byte"] - 4, it["high"], it["low"]): it["name"] for it in objects if it["type"] == "field" and it["block"] == 1}
        for line in rows.strip().splitlines():
            byte, high, low, name = line.split(" ", 3)
            found = fields.get((int(byte), int(high), int(low)))
            yield found == name or "%d %s: %s, and it is %s %s" % (tag, begin, line, found, err)


def blocks_fail(program):
    """Data blocks of which something else is written."""
    for tag, payload, text in BLOCKS:
        block = data_block(tag, payload)
        objects, err = objects_of(program, with_blocks(block))
        got = [row(it) for it in objects if it["block"] == 1 and 4 <= it["byte"] < 4 + len(block)]
        yield got == text.splitlines() or "%d %s: %s, and it is %s %s" % (tag, payload, text, got, err)


def base_fails(program):
    """Bytes of base blocks of which something else is written: each field that a row has, and no other of its bits."""
    for name, at, digits, text in BASE:
        own = bytes.fromhex(digits.replace(" ", ""))
        data = example(name)
        base = data[:at] + own + data[at + len(own):128]
        objects, err = objects_of(program, summed(base) + data[128:])
        wanted = text.splitlines()
        asked = {int(line.split(" ")[0]) for line in wanted}
        got = [row(it) for it in objects if it["block"] == 0 and it["type"] == "field" and it["byte"] in asked]
        yield got == wanted or "%s byte %d %s: %s, and it is %s %s" % (name, at, digits, wanted, got, err)


def descriptors_fail(program):
    """Display descriptors whose part has another name."""
    for line in DESCRIPTORS.splitlines():
        tag, name = line.split(" ", 1)
        base = bytearray(example(FOUR))
        base[90:108] = bytes.fromhex("000000%s00" % tag) + bytes(13)
        objects, err = objects_of(program, summed(bytes(base[:128])) + bytes(base[128:]))
        names = [it["name"] for it in objects if it["type"] == "part" and (it["block"], it["byte"]) == (0, 90)]
        yield names == [name] or "descriptor %s: %s, and it is %s %s" % (tag, name, names, err)


def parts_fail(program):
    """The parts of a monitor's EDID, and an extension that is none of CTA-861."""
    data = example(FOUR)
    objects, _ = objects_of(program, data)
    got = ["%d %d %d %s" % (it["block"], it["byte"], len(it["bytes"]) // 2, it["name"]) for it in objects if it["type"] == "part"]
    yield got == PARTS.splitlines() or "parts: %s" % got
    objects, _ = objects_of(program, data[:128] + summed(bytes([0x40]) + bytes(range(1, 128))))
    got = [(it["byte"], len(it["bytes"]) // 2, it["name"]) for it in objects if it["type"] == "part" and it["block"] == 1]
    yield got == [(0, 127, "extension"), (127, 1, "Checksum C")] or "an extension of another kind: %s" % got


def bits_fail(program):
    """Examples in which a bit stands in no field, in two, or in one that has another value for it."""
    for path in sorted(glob.glob(os.path.join(TOP, "examples/*.edid"))):
        with open(path, "rb") as file:
            data = file.read()
        bits = []
        objects, _ = objects_of(program, data)
        for it in objects:
            if it["type"] == "field":
                place = 128 * it["block"] + it["byte"]
                bits += [(place, bit, it["value"] >> bit - it["low"] & 1) for bit in range(it["high"], it["low"] - 1, -1)]
        wanted = [(place, bit, byte >> bit & 1) for place, byte in enumerate(data) for bit in range(7, -1, -1)]
        yield bits == wanted or "%s: not each bit stands once, in order" % path


def main():
    return fails_told("blocks", [names_fail, fields_fail, blocks_fail, base_fails, descriptors_fail, parts_fail, bits_fail])


if __name__ == "__main__":
    sys.exit(main())
