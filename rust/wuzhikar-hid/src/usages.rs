//! The usages of the HID Usage Tables as constants, a module for each page: its number, and its usages by their names.
//!
//! A usage has its page in the high half. A constant is the name in the tables in capitals, with an underscore between words:
//! Volume Increment is [`consumer::VOLUME_INCREMENT`], and PageUp [`keyboard::PAGE_UP`]. A sign between words is left out, but a
//! plus and a sign that stands alone have their names: [`keyboard::KEYPAD_SLASH`]. An N stands before a digit that would come
//! first. On the page Keyboard/Keypad the word Keyboard and what follows "and" are left out: [`keyboard::A`], [`keyboard::N1`].
//! A module has the name of the page up to a slash. Usages that a page counts have no constants: button 3 is
//! `button::PAGE << 16 | 3`.
//!
//! `tools/make/usage_names.py --write` of the repository makes this file from `usages.txt`.

/// The pages of `usages.txt`, rising: the number of each, and where its lines begin and end, in bytes.
pub(crate) static PAGES: [(u16, usize, usize); 18] = [
    (0x01, 473, 2759),
    (0x02, 2759, 3761),
    (0x03, 3761, 3947),
    (0x04, 3947, 4382),
    (0x05, 4382, 4894),
    (0x06, 4894, 5387),
    (0x07, 5387, 10850),
    (0x08, 10850, 12328),
    (0x09, 12328, 12352),
    (0x0b, 12352, 14126),
    (0x0c, 14126, 24125),
    (0x0d, 24125, 26424),
    (0x0e, 26424, 27142),
    (0x20, 27142, 36714),
    (0x59, 36714, 37494),
    (0x84, 37494, 38756),
    (0x85, 38756, 40711),
    (0xf1d0, 40711, 40806),
];

/// The page Generic Desktop.
pub mod generic_desktop {
    /// The number of the page: the high half of each usage.
    pub const PAGE: u32 = 0x0001;
    /// Pointer
    pub const POINTER: u32 = 0x0001_0001;
    /// Mouse
    pub const MOUSE: u32 = 0x0001_0002;
    /// Joystick
    pub const JOYSTICK: u32 = 0x0001_0004;
    /// Gamepad
    pub const GAMEPAD: u32 = 0x0001_0005;
    /// Keyboard
    pub const KEYBOARD: u32 = 0x0001_0006;
    /// Keypad
    pub const KEYPAD: u32 = 0x0001_0007;
    /// Multi-axis Controller
    pub const MULTI_AXIS_CONTROLLER: u32 = 0x0001_0008;
    /// Tablet PC System Controls
    pub const TABLET_PC_SYSTEM_CONTROLS: u32 = 0x0001_0009;
    /// Water Cooling Device
    pub const WATER_COOLING_DEVICE: u32 = 0x0001_000a;
    /// Computer Chassis Device
    pub const COMPUTER_CHASSIS_DEVICE: u32 = 0x0001_000b;
    /// Wireless Radio Controls
    pub const WIRELESS_RADIO_CONTROLS: u32 = 0x0001_000c;
    /// Portable Device Control
    pub const PORTABLE_DEVICE_CONTROL: u32 = 0x0001_000d;
    /// System Multi-Axis Controller
    pub const SYSTEM_MULTI_AXIS_CONTROLLER: u32 = 0x0001_000e;
    /// Spatial Controller
    pub const SPATIAL_CONTROLLER: u32 = 0x0001_000f;
    /// Assistive Control
    pub const ASSISTIVE_CONTROL: u32 = 0x0001_0010;
    /// Device Dock
    pub const DEVICE_DOCK: u32 = 0x0001_0011;
    /// Dockable Device
    pub const DOCKABLE_DEVICE: u32 = 0x0001_0012;
    /// Call State Management Control
    pub const CALL_STATE_MANAGEMENT_CONTROL: u32 = 0x0001_0013;
    /// X
    pub const X: u32 = 0x0001_0030;
    /// Y
    pub const Y: u32 = 0x0001_0031;
    /// Z
    pub const Z: u32 = 0x0001_0032;
    /// Rx
    pub const RX: u32 = 0x0001_0033;
    /// Ry
    pub const RY: u32 = 0x0001_0034;
    /// Rz
    pub const RZ: u32 = 0x0001_0035;
    /// Slider
    pub const SLIDER: u32 = 0x0001_0036;
    /// Dial
    pub const DIAL: u32 = 0x0001_0037;
    /// Wheel
    pub const WHEEL: u32 = 0x0001_0038;
    /// Hat Switch
    pub const HAT_SWITCH: u32 = 0x0001_0039;
    /// Counted Buffer
    pub const COUNTED_BUFFER: u32 = 0x0001_003a;
    /// Byte Count
    pub const BYTE_COUNT: u32 = 0x0001_003b;
    /// Motion Wakeup
    pub const MOTION_WAKEUP: u32 = 0x0001_003c;
    /// Start
    pub const START: u32 = 0x0001_003d;
    /// Select
    pub const SELECT: u32 = 0x0001_003e;
    /// Vx
    pub const VX: u32 = 0x0001_0040;
    /// Vy
    pub const VY: u32 = 0x0001_0041;
    /// Vz
    pub const VZ: u32 = 0x0001_0042;
    /// Vbrx
    pub const VBRX: u32 = 0x0001_0043;
    /// Vbry
    pub const VBRY: u32 = 0x0001_0044;
    /// Vbrz
    pub const VBRZ: u32 = 0x0001_0045;
    /// Vno
    pub const VNO: u32 = 0x0001_0046;
    /// Feature Notification
    pub const FEATURE_NOTIFICATION: u32 = 0x0001_0047;
    /// Resolution Multiplier
    pub const RESOLUTION_MULTIPLIER: u32 = 0x0001_0048;
    /// Qx
    pub const QX: u32 = 0x0001_0049;
    /// Qy
    pub const QY: u32 = 0x0001_004a;
    /// Qz
    pub const QZ: u32 = 0x0001_004b;
    /// Qw
    pub const QW: u32 = 0x0001_004c;
    /// System Control
    pub const SYSTEM_CONTROL: u32 = 0x0001_0080;
    /// System Power Down
    pub const SYSTEM_POWER_DOWN: u32 = 0x0001_0081;
    /// System Sleep
    pub const SYSTEM_SLEEP: u32 = 0x0001_0082;
    /// System Wake Up
    pub const SYSTEM_WAKE_UP: u32 = 0x0001_0083;
    /// System Context Menu
    pub const SYSTEM_CONTEXT_MENU: u32 = 0x0001_0084;
    /// System Main Menu
    pub const SYSTEM_MAIN_MENU: u32 = 0x0001_0085;
    /// System App Menu
    pub const SYSTEM_APP_MENU: u32 = 0x0001_0086;
    /// System Menu Help
    pub const SYSTEM_MENU_HELP: u32 = 0x0001_0087;
    /// System Menu Exit
    pub const SYSTEM_MENU_EXIT: u32 = 0x0001_0088;
    /// System Menu Select
    pub const SYSTEM_MENU_SELECT: u32 = 0x0001_0089;
    /// System Menu Right
    pub const SYSTEM_MENU_RIGHT: u32 = 0x0001_008a;
    /// System Menu Left
    pub const SYSTEM_MENU_LEFT: u32 = 0x0001_008b;
    /// System Menu Up
    pub const SYSTEM_MENU_UP: u32 = 0x0001_008c;
    /// System Menu Down
    pub const SYSTEM_MENU_DOWN: u32 = 0x0001_008d;
    /// System Cold Restart
    pub const SYSTEM_COLD_RESTART: u32 = 0x0001_008e;
    /// System Warm Restart
    pub const SYSTEM_WARM_RESTART: u32 = 0x0001_008f;
    /// D-pad Up
    pub const D_PAD_UP: u32 = 0x0001_0090;
    /// D-pad Down
    pub const D_PAD_DOWN: u32 = 0x0001_0091;
    /// D-pad Right
    pub const D_PAD_RIGHT: u32 = 0x0001_0092;
    /// D-pad Left
    pub const D_PAD_LEFT: u32 = 0x0001_0093;
    /// Index Trigger
    pub const INDEX_TRIGGER: u32 = 0x0001_0094;
    /// Palm Trigger
    pub const PALM_TRIGGER: u32 = 0x0001_0095;
    /// Thumbstick
    pub const THUMBSTICK: u32 = 0x0001_0096;
    /// System Function Shift
    pub const SYSTEM_FUNCTION_SHIFT: u32 = 0x0001_0097;
    /// System Function Shift Lock
    pub const SYSTEM_FUNCTION_SHIFT_LOCK: u32 = 0x0001_0098;
    /// System Function Shift Lock Indicator
    pub const SYSTEM_FUNCTION_SHIFT_LOCK_INDICATOR: u32 = 0x0001_0099;
    /// System Dismiss Notification
    pub const SYSTEM_DISMISS_NOTIFICATION: u32 = 0x0001_009a;
    /// System Do Not Disturb
    pub const SYSTEM_DO_NOT_DISTURB: u32 = 0x0001_009b;
    /// System Dock
    pub const SYSTEM_DOCK: u32 = 0x0001_00a0;
    /// System Undock
    pub const SYSTEM_UNDOCK: u32 = 0x0001_00a1;
    /// System Setup
    pub const SYSTEM_SETUP: u32 = 0x0001_00a2;
    /// System Break
    pub const SYSTEM_BREAK: u32 = 0x0001_00a3;
    /// System Debugger Break
    pub const SYSTEM_DEBUGGER_BREAK: u32 = 0x0001_00a4;
    /// Application Break
    pub const APPLICATION_BREAK: u32 = 0x0001_00a5;
    /// Application Debugger Break
    pub const APPLICATION_DEBUGGER_BREAK: u32 = 0x0001_00a6;
    /// System Speaker Mute
    pub const SYSTEM_SPEAKER_MUTE: u32 = 0x0001_00a7;
    /// System Hibernate
    pub const SYSTEM_HIBERNATE: u32 = 0x0001_00a8;
    /// System Microphone Mute
    pub const SYSTEM_MICROPHONE_MUTE: u32 = 0x0001_00a9;
    /// System Accessibility Binding
    pub const SYSTEM_ACCESSIBILITY_BINDING: u32 = 0x0001_00aa;
    /// System Display Invert
    pub const SYSTEM_DISPLAY_INVERT: u32 = 0x0001_00b0;
    /// System Display Internal
    pub const SYSTEM_DISPLAY_INTERNAL: u32 = 0x0001_00b1;
    /// System Display External
    pub const SYSTEM_DISPLAY_EXTERNAL: u32 = 0x0001_00b2;
    /// System Display Both
    pub const SYSTEM_DISPLAY_BOTH: u32 = 0x0001_00b3;
    /// System Display Dual
    pub const SYSTEM_DISPLAY_DUAL: u32 = 0x0001_00b4;
    /// System Display Toggle Int/Ext Mode
    pub const SYSTEM_DISPLAY_TOGGLE_INT_EXT_MODE: u32 = 0x0001_00b5;
    /// System Display Swap Primary/Secondary
    pub const SYSTEM_DISPLAY_SWAP_PRIMARY_SECONDARY: u32 = 0x0001_00b6;
    /// System Display Toggle LCD Autoscale
    pub const SYSTEM_DISPLAY_TOGGLE_LCD_AUTOSCALE: u32 = 0x0001_00b7;
    /// Sensor Zone
    pub const SENSOR_ZONE: u32 = 0x0001_00c0;
    /// RPM
    pub const RPM: u32 = 0x0001_00c1;
    /// Coolant Level
    pub const COOLANT_LEVEL: u32 = 0x0001_00c2;
    /// Coolant Critical Level
    pub const COOLANT_CRITICAL_LEVEL: u32 = 0x0001_00c3;
    /// Coolant Pump
    pub const COOLANT_PUMP: u32 = 0x0001_00c4;
    /// Chassis Enclosure
    pub const CHASSIS_ENCLOSURE: u32 = 0x0001_00c5;
    /// Wireless Radio Button
    pub const WIRELESS_RADIO_BUTTON: u32 = 0x0001_00c6;
    /// Wireless Radio LED
    pub const WIRELESS_RADIO_LED: u32 = 0x0001_00c7;
    /// Wireless Radio Slider Switch
    pub const WIRELESS_RADIO_SLIDER_SWITCH: u32 = 0x0001_00c8;
    /// System Display Rotation Lock Button
    pub const SYSTEM_DISPLAY_ROTATION_LOCK_BUTTON: u32 = 0x0001_00c9;
    /// System Display Rotation Lock Slider Switch
    pub const SYSTEM_DISPLAY_ROTATION_LOCK_SLIDER_SWITCH: u32 = 0x0001_00ca;
    /// Control Enable
    pub const CONTROL_ENABLE: u32 = 0x0001_00cb;
    /// Dockable Device Unique ID
    pub const DOCKABLE_DEVICE_UNIQUE_ID: u32 = 0x0001_00d0;
    /// Dockable Device Vendor ID
    pub const DOCKABLE_DEVICE_VENDOR_ID: u32 = 0x0001_00d1;
    /// Dockable Device Primary Usage Page
    pub const DOCKABLE_DEVICE_PRIMARY_USAGE_PAGE: u32 = 0x0001_00d2;
    /// Dockable Device Primary Usage ID
    pub const DOCKABLE_DEVICE_PRIMARY_USAGE_ID: u32 = 0x0001_00d3;
    /// Dockable Device Docking State
    pub const DOCKABLE_DEVICE_DOCKING_STATE: u32 = 0x0001_00d4;
    /// Dockable Device Display Occlusion
    pub const DOCKABLE_DEVICE_DISPLAY_OCCLUSION: u32 = 0x0001_00d5;
    /// Dockable Device Object Type
    pub const DOCKABLE_DEVICE_OBJECT_TYPE: u32 = 0x0001_00d6;
    /// Call Active LED
    pub const CALL_ACTIVE_LED: u32 = 0x0001_00e0;
    /// Call Mute Toggle
    pub const CALL_MUTE_TOGGLE: u32 = 0x0001_00e1;
    /// Call Mute LED
    pub const CALL_MUTE_LED: u32 = 0x0001_00e2;
}

/// The page Simulation.
pub mod simulation {
    /// The number of the page: the high half of each usage.
    pub const PAGE: u32 = 0x0002;
    /// Flight Simulation Device
    pub const FLIGHT_SIMULATION_DEVICE: u32 = 0x0002_0001;
    /// Automobile Simulation Device
    pub const AUTOMOBILE_SIMULATION_DEVICE: u32 = 0x0002_0002;
    /// Tank Simulation Device
    pub const TANK_SIMULATION_DEVICE: u32 = 0x0002_0003;
    /// Spaceship Simulation Device
    pub const SPACESHIP_SIMULATION_DEVICE: u32 = 0x0002_0004;
    /// Submarine Simulation Device
    pub const SUBMARINE_SIMULATION_DEVICE: u32 = 0x0002_0005;
    /// Sailing Simulation Device
    pub const SAILING_SIMULATION_DEVICE: u32 = 0x0002_0006;
    /// Motorcycle Simulation Device
    pub const MOTORCYCLE_SIMULATION_DEVICE: u32 = 0x0002_0007;
    /// Sports Simulation Device
    pub const SPORTS_SIMULATION_DEVICE: u32 = 0x0002_0008;
    /// Airplane Simulation Device
    pub const AIRPLANE_SIMULATION_DEVICE: u32 = 0x0002_0009;
    /// Helicopter Simulation Device
    pub const HELICOPTER_SIMULATION_DEVICE: u32 = 0x0002_000a;
    /// Magic Carpet Simulation Device
    pub const MAGIC_CARPET_SIMULATION_DEVICE: u32 = 0x0002_000b;
    /// Bicycle Simulation Device
    pub const BICYCLE_SIMULATION_DEVICE: u32 = 0x0002_000c;
    /// Flight Control Stick
    pub const FLIGHT_CONTROL_STICK: u32 = 0x0002_0020;
    /// Flight Stick
    pub const FLIGHT_STICK: u32 = 0x0002_0021;
    /// Cyclic Control
    pub const CYCLIC_CONTROL: u32 = 0x0002_0022;
    /// Cyclic Trim
    pub const CYCLIC_TRIM: u32 = 0x0002_0023;
    /// Flight Yoke
    pub const FLIGHT_YOKE: u32 = 0x0002_0024;
    /// Track Control
    pub const TRACK_CONTROL: u32 = 0x0002_0025;
    /// Aileron
    pub const AILERON: u32 = 0x0002_00b0;
    /// Aileron Trim
    pub const AILERON_TRIM: u32 = 0x0002_00b1;
    /// Anti-Torque Control
    pub const ANTI_TORQUE_CONTROL: u32 = 0x0002_00b2;
    /// Autopilot Enable
    pub const AUTOPILOT_ENABLE: u32 = 0x0002_00b3;
    /// Chaff Release
    pub const CHAFF_RELEASE: u32 = 0x0002_00b4;
    /// Collective Control
    pub const COLLECTIVE_CONTROL: u32 = 0x0002_00b5;
    /// Dive Brake
    pub const DIVE_BRAKE: u32 = 0x0002_00b6;
    /// Electronic Countermeasures
    pub const ELECTRONIC_COUNTERMEASURES: u32 = 0x0002_00b7;
    /// Elevator
    pub const ELEVATOR: u32 = 0x0002_00b8;
    /// Elevator Trim
    pub const ELEVATOR_TRIM: u32 = 0x0002_00b9;
    /// Rudder
    pub const RUDDER: u32 = 0x0002_00ba;
    /// Throttle
    pub const THROTTLE: u32 = 0x0002_00bb;
    /// Flight Communications
    pub const FLIGHT_COMMUNICATIONS: u32 = 0x0002_00bc;
    /// Flare Release
    pub const FLARE_RELEASE: u32 = 0x0002_00bd;
    /// Landing Gear
    pub const LANDING_GEAR: u32 = 0x0002_00be;
    /// Toe Brake
    pub const TOE_BRAKE: u32 = 0x0002_00bf;
    /// Trigger
    pub const TRIGGER: u32 = 0x0002_00c0;
    /// Weapons Arm
    pub const WEAPONS_ARM: u32 = 0x0002_00c1;
    /// Weapons Select
    pub const WEAPONS_SELECT: u32 = 0x0002_00c2;
    /// Wing Flaps
    pub const WING_FLAPS: u32 = 0x0002_00c3;
    /// Accelerator
    pub const ACCELERATOR: u32 = 0x0002_00c4;
    /// Brake
    pub const BRAKE: u32 = 0x0002_00c5;
    /// Clutch
    pub const CLUTCH: u32 = 0x0002_00c6;
    /// Shifter
    pub const SHIFTER: u32 = 0x0002_00c7;
    /// Steering
    pub const STEERING: u32 = 0x0002_00c8;
    /// Turret Direction
    pub const TURRET_DIRECTION: u32 = 0x0002_00c9;
    /// Barrel Elevation
    pub const BARREL_ELEVATION: u32 = 0x0002_00ca;
    /// Dive Plane
    pub const DIVE_PLANE: u32 = 0x0002_00cb;
    /// Ballast
    pub const BALLAST: u32 = 0x0002_00cc;
    /// Bicycle Crank
    pub const BICYCLE_CRANK: u32 = 0x0002_00cd;
    /// Handle Bars
    pub const HANDLE_BARS: u32 = 0x0002_00ce;
    /// Front Brake
    pub const FRONT_BRAKE: u32 = 0x0002_00cf;
    /// Rear Brake
    pub const REAR_BRAKE: u32 = 0x0002_00d0;
}

/// The page VR.
pub mod vr {
    /// The number of the page: the high half of each usage.
    pub const PAGE: u32 = 0x0003;
    /// Belt
    pub const BELT: u32 = 0x0003_0001;
    /// Body Suit
    pub const BODY_SUIT: u32 = 0x0003_0002;
    /// Flexor
    pub const FLEXOR: u32 = 0x0003_0003;
    /// Glove
    pub const GLOVE: u32 = 0x0003_0004;
    /// Head Tracker
    pub const HEAD_TRACKER: u32 = 0x0003_0005;
    /// Head Mounted Display
    pub const HEAD_MOUNTED_DISPLAY: u32 = 0x0003_0006;
    /// Hand Tracker
    pub const HAND_TRACKER: u32 = 0x0003_0007;
    /// Oculometer
    pub const OCULOMETER: u32 = 0x0003_0008;
    /// Vest
    pub const VEST: u32 = 0x0003_0009;
    /// Animatronic Device
    pub const ANIMATRONIC_DEVICE: u32 = 0x0003_000a;
    /// Stereo Enable
    pub const STEREO_ENABLE: u32 = 0x0003_0020;
    /// Display Enable
    pub const DISPLAY_ENABLE: u32 = 0x0003_0021;
}

/// The page Sport.
pub mod sport {
    /// The number of the page: the high half of each usage.
    pub const PAGE: u32 = 0x0004;
    /// Baseball Bat
    pub const BASEBALL_BAT: u32 = 0x0004_0001;
    /// Golf Club
    pub const GOLF_CLUB: u32 = 0x0004_0002;
    /// Rowing Machine
    pub const ROWING_MACHINE: u32 = 0x0004_0003;
    /// Treadmill
    pub const TREADMILL: u32 = 0x0004_0004;
    /// Oar
    pub const OAR: u32 = 0x0004_0030;
    /// Slope
    pub const SLOPE: u32 = 0x0004_0031;
    /// Rate
    pub const RATE: u32 = 0x0004_0032;
    /// Stick Speed
    pub const STICK_SPEED: u32 = 0x0004_0033;
    /// Stick Face Angle
    pub const STICK_FACE_ANGLE: u32 = 0x0004_0034;
    /// Stick Heel/Toe
    pub const STICK_HEEL_TOE: u32 = 0x0004_0035;
    /// Stick Follow Through
    pub const STICK_FOLLOW_THROUGH: u32 = 0x0004_0036;
    /// Stick Tempo
    pub const STICK_TEMPO: u32 = 0x0004_0037;
    /// Stick Type
    pub const STICK_TYPE: u32 = 0x0004_0038;
    /// Stick Height
    pub const STICK_HEIGHT: u32 = 0x0004_0039;
    /// Putter
    pub const PUTTER: u32 = 0x0004_0050;
    /// 1 Iron
    pub const N1_IRON: u32 = 0x0004_0051;
    /// 2 Iron
    pub const N2_IRON: u32 = 0x0004_0052;
    /// 3 Iron
    pub const N3_IRON: u32 = 0x0004_0053;
    /// 4 Iron
    pub const N4_IRON: u32 = 0x0004_0054;
    /// 5 Iron
    pub const N5_IRON: u32 = 0x0004_0055;
    /// 6 Iron
    pub const N6_IRON: u32 = 0x0004_0056;
    /// 7 Iron
    pub const N7_IRON: u32 = 0x0004_0057;
    /// 8 Iron
    pub const N8_IRON: u32 = 0x0004_0058;
    /// 9 Iron
    pub const N9_IRON: u32 = 0x0004_0059;
    /// 10 Iron
    pub const N10_IRON: u32 = 0x0004_005a;
    /// 11 Iron
    pub const N11_IRON: u32 = 0x0004_005b;
    /// Sand Wedge
    pub const SAND_WEDGE: u32 = 0x0004_005c;
    /// Loft Wedge
    pub const LOFT_WEDGE: u32 = 0x0004_005d;
    /// Power Wedge
    pub const POWER_WEDGE: u32 = 0x0004_005e;
    /// 1 Wood
    pub const N1_WOOD: u32 = 0x0004_005f;
    /// 3 Wood
    pub const N3_WOOD: u32 = 0x0004_0060;
    /// 5 Wood
    pub const N5_WOOD: u32 = 0x0004_0061;
    /// 7 Wood
    pub const N7_WOOD: u32 = 0x0004_0062;
    /// 9 Wood
    pub const N9_WOOD: u32 = 0x0004_0063;
}

/// The page Game.
pub mod game {
    /// The number of the page: the high half of each usage.
    pub const PAGE: u32 = 0x0005;
    /// 3D Game Controller
    pub const N3D_GAME_CONTROLLER: u32 = 0x0005_0001;
    /// Pinball Device
    pub const PINBALL_DEVICE: u32 = 0x0005_0002;
    /// Gun Device
    pub const GUN_DEVICE: u32 = 0x0005_0003;
    /// Point of View
    pub const POINT_OF_VIEW: u32 = 0x0005_0020;
    /// Turn Right/Left
    pub const TURN_RIGHT_LEFT: u32 = 0x0005_0021;
    /// Pitch Forward/Backward
    pub const PITCH_FORWARD_BACKWARD: u32 = 0x0005_0022;
    /// Roll Right/Left
    pub const ROLL_RIGHT_LEFT: u32 = 0x0005_0023;
    /// Move Right/Left
    pub const MOVE_RIGHT_LEFT: u32 = 0x0005_0024;
    /// Move Forward/Backward
    pub const MOVE_FORWARD_BACKWARD: u32 = 0x0005_0025;
    /// Move Up/Down
    pub const MOVE_UP_DOWN: u32 = 0x0005_0026;
    /// Lean Right/Left
    pub const LEAN_RIGHT_LEFT: u32 = 0x0005_0027;
    /// Lean Forward/Backward
    pub const LEAN_FORWARD_BACKWARD: u32 = 0x0005_0028;
    /// Height of POV
    pub const HEIGHT_OF_POV: u32 = 0x0005_0029;
    /// Flipper
    pub const FLIPPER: u32 = 0x0005_002a;
    /// Secondary Flipper
    pub const SECONDARY_FLIPPER: u32 = 0x0005_002b;
    /// Bump
    pub const BUMP: u32 = 0x0005_002c;
    /// New Game
    pub const NEW_GAME: u32 = 0x0005_002d;
    /// Shoot Ball
    pub const SHOOT_BALL: u32 = 0x0005_002e;
    /// Player
    pub const PLAYER: u32 = 0x0005_002f;
    /// Gun Bolt
    pub const GUN_BOLT: u32 = 0x0005_0030;
    /// Gun Clip
    pub const GUN_CLIP: u32 = 0x0005_0031;
    /// Gun Selector
    pub const GUN_SELECTOR: u32 = 0x0005_0032;
    /// Gun Single Shot
    pub const GUN_SINGLE_SHOT: u32 = 0x0005_0033;
    /// Gun Burst
    pub const GUN_BURST: u32 = 0x0005_0034;
    /// Gun Automatic
    pub const GUN_AUTOMATIC: u32 = 0x0005_0035;
    /// Gun Safety
    pub const GUN_SAFETY: u32 = 0x0005_0036;
    /// Gamepad Fire/Jump
    pub const GAMEPAD_FIRE_JUMP: u32 = 0x0005_0037;
    /// Gamepad Trigger
    pub const GAMEPAD_TRIGGER: u32 = 0x0005_0039;
    /// Form-fitting Gamepad
    pub const FORM_FITTING_GAMEPAD: u32 = 0x0005_003a;
}

/// The page Generic Device.
pub mod generic_device {
    /// The number of the page: the high half of each usage.
    pub const PAGE: u32 = 0x0006;
    /// Background/Nonuser Controls
    pub const BACKGROUND_NONUSER_CONTROLS: u32 = 0x0006_0001;
    /// Battery Strength
    pub const BATTERY_STRENGTH: u32 = 0x0006_0020;
    /// Wireless Channel
    pub const WIRELESS_CHANNEL: u32 = 0x0006_0021;
    /// Wireless ID
    pub const WIRELESS_ID: u32 = 0x0006_0022;
    /// Discover Wireless Control
    pub const DISCOVER_WIRELESS_CONTROL: u32 = 0x0006_0023;
    /// Security Code Character Entered
    pub const SECURITY_CODE_CHARACTER_ENTERED: u32 = 0x0006_0024;
    /// Security Code Character Erased
    pub const SECURITY_CODE_CHARACTER_ERASED: u32 = 0x0006_0025;
    /// Security Code Cleared
    pub const SECURITY_CODE_CLEARED: u32 = 0x0006_0026;
    /// Sequence ID
    pub const SEQUENCE_ID: u32 = 0x0006_0027;
    /// Sequence ID Reset
    pub const SEQUENCE_ID_RESET: u32 = 0x0006_0028;
    /// RF Signal Strength
    pub const RF_SIGNAL_STRENGTH: u32 = 0x0006_0029;
    /// Software Version
    pub const SOFTWARE_VERSION: u32 = 0x0006_002a;
    /// Protocol Version
    pub const PROTOCOL_VERSION: u32 = 0x0006_002b;
    /// Hardware Version
    pub const HARDWARE_VERSION: u32 = 0x0006_002c;
    /// Major
    pub const MAJOR: u32 = 0x0006_002d;
    /// Minor
    pub const MINOR: u32 = 0x0006_002e;
    /// Revision
    pub const REVISION: u32 = 0x0006_002f;
    /// Handedness
    pub const HANDEDNESS: u32 = 0x0006_0030;
    /// Either Hand
    pub const EITHER_HAND: u32 = 0x0006_0031;
    /// Left Hand
    pub const LEFT_HAND: u32 = 0x0006_0032;
    /// Right Hand
    pub const RIGHT_HAND: u32 = 0x0006_0033;
    /// Both Hands
    pub const BOTH_HANDS: u32 = 0x0006_0034;
    /// Grip Pose Offset
    pub const GRIP_POSE_OFFSET: u32 = 0x0006_0040;
    /// Pointer Pose Offset
    pub const POINTER_POSE_OFFSET: u32 = 0x0006_0041;
}

/// The page Keyboard/Keypad.
pub mod keyboard {
    /// The number of the page: the high half of each usage.
    pub const PAGE: u32 = 0x0007;
    /// Keyboard ErrorRollOver
    pub const ERROR_ROLL_OVER: u32 = 0x0007_0001;
    /// Keyboard POSTFail
    pub const POST_FAIL: u32 = 0x0007_0002;
    /// Keyboard ErrorUndefined
    pub const ERROR_UNDEFINED: u32 = 0x0007_0003;
    /// Keyboard a and A
    pub const A: u32 = 0x0007_0004;
    /// Keyboard b and B
    pub const B: u32 = 0x0007_0005;
    /// Keyboard c and C
    pub const C: u32 = 0x0007_0006;
    /// Keyboard d and D
    pub const D: u32 = 0x0007_0007;
    /// Keyboard e and E
    pub const E: u32 = 0x0007_0008;
    /// Keyboard f and F
    pub const F: u32 = 0x0007_0009;
    /// Keyboard g and G
    pub const G: u32 = 0x0007_000a;
    /// Keyboard h and H
    pub const H: u32 = 0x0007_000b;
    /// Keyboard i and I
    pub const I: u32 = 0x0007_000c;
    /// Keyboard j and J
    pub const J: u32 = 0x0007_000d;
    /// Keyboard k and K
    pub const K: u32 = 0x0007_000e;
    /// Keyboard l and L
    pub const L: u32 = 0x0007_000f;
    /// Keyboard m and M
    pub const M: u32 = 0x0007_0010;
    /// Keyboard n and N
    pub const N: u32 = 0x0007_0011;
    /// Keyboard o and O
    pub const O: u32 = 0x0007_0012;
    /// Keyboard p and P
    pub const P: u32 = 0x0007_0013;
    /// Keyboard q and Q
    pub const Q: u32 = 0x0007_0014;
    /// Keyboard r and R
    pub const R: u32 = 0x0007_0015;
    /// Keyboard s and S
    pub const S: u32 = 0x0007_0016;
    /// Keyboard t and T
    pub const T: u32 = 0x0007_0017;
    /// Keyboard u and U
    pub const U: u32 = 0x0007_0018;
    /// Keyboard v and V
    pub const V: u32 = 0x0007_0019;
    /// Keyboard w and W
    pub const W: u32 = 0x0007_001a;
    /// Keyboard x and X
    pub const X: u32 = 0x0007_001b;
    /// Keyboard y and Y
    pub const Y: u32 = 0x0007_001c;
    /// Keyboard z and Z
    pub const Z: u32 = 0x0007_001d;
    /// Keyboard 1 and !
    pub const N1: u32 = 0x0007_001e;
    /// Keyboard 2 and @
    pub const N2: u32 = 0x0007_001f;
    /// Keyboard 3 and #
    pub const N3: u32 = 0x0007_0020;
    /// Keyboard 4 and $
    pub const N4: u32 = 0x0007_0021;
    /// Keyboard 5 and %
    pub const N5: u32 = 0x0007_0022;
    /// Keyboard 6 and ^
    pub const N6: u32 = 0x0007_0023;
    /// Keyboard 7 and &
    pub const N7: u32 = 0x0007_0024;
    /// Keyboard 8 and *
    pub const N8: u32 = 0x0007_0025;
    /// Keyboard 9 and (
    pub const N9: u32 = 0x0007_0026;
    /// Keyboard 0 and )
    pub const N0: u32 = 0x0007_0027;
    /// Keyboard Return (ENTER)
    pub const RETURN_ENTER: u32 = 0x0007_0028;
    /// Keyboard ESCAPE
    pub const ESCAPE: u32 = 0x0007_0029;
    /// Keyboard DELETE (Backspace)
    pub const DELETE_BACKSPACE: u32 = 0x0007_002a;
    /// Keyboard Tab
    pub const TAB: u32 = 0x0007_002b;
    /// Keyboard Spacebar
    pub const SPACEBAR: u32 = 0x0007_002c;
    /// Keyboard - and (underscore)
    pub const MINUS: u32 = 0x0007_002d;
    /// Keyboard = and +
    pub const EQUALS: u32 = 0x0007_002e;
    /// Keyboard [ and {
    pub const LEFT_BRACKET: u32 = 0x0007_002f;
    /// Keyboard ] and }
    pub const RIGHT_BRACKET: u32 = 0x0007_0030;
    /// Keyboard \ and bar
    pub const BACKSLASH: u32 = 0x0007_0031;
    /// Keyboard Non-US # and ~
    pub const NON_US_HASH: u32 = 0x0007_0032;
    /// Keyboard ; and :
    pub const SEMICOLON: u32 = 0x0007_0033;
    /// Keyboard ' and "
    pub const APOSTROPHE: u32 = 0x0007_0034;
    /// Keyboard Grave Accent and Tilde
    pub const GRAVE_ACCENT: u32 = 0x0007_0035;
    /// Keyboard , and <
    pub const COMMA: u32 = 0x0007_0036;
    /// Keyboard . and >
    pub const DOT: u32 = 0x0007_0037;
    /// Keyboard / and ?
    pub const SLASH: u32 = 0x0007_0038;
    /// Keyboard Caps Lock
    pub const CAPS_LOCK: u32 = 0x0007_0039;
    /// Keyboard F1
    pub const F1: u32 = 0x0007_003a;
    /// Keyboard F2
    pub const F2: u32 = 0x0007_003b;
    /// Keyboard F3
    pub const F3: u32 = 0x0007_003c;
    /// Keyboard F4
    pub const F4: u32 = 0x0007_003d;
    /// Keyboard F5
    pub const F5: u32 = 0x0007_003e;
    /// Keyboard F6
    pub const F6: u32 = 0x0007_003f;
    /// Keyboard F7
    pub const F7: u32 = 0x0007_0040;
    /// Keyboard F8
    pub const F8: u32 = 0x0007_0041;
    /// Keyboard F9
    pub const F9: u32 = 0x0007_0042;
    /// Keyboard F10
    pub const F10: u32 = 0x0007_0043;
    /// Keyboard F11
    pub const F11: u32 = 0x0007_0044;
    /// Keyboard F12
    pub const F12: u32 = 0x0007_0045;
    /// Keyboard PrintScreen
    pub const PRINT_SCREEN: u32 = 0x0007_0046;
    /// Keyboard Scroll Lock
    pub const SCROLL_LOCK: u32 = 0x0007_0047;
    /// Keyboard Pause
    pub const PAUSE: u32 = 0x0007_0048;
    /// Keyboard Insert
    pub const INSERT: u32 = 0x0007_0049;
    /// Keyboard Home
    pub const HOME: u32 = 0x0007_004a;
    /// Keyboard PageUp
    pub const PAGE_UP: u32 = 0x0007_004b;
    /// Keyboard Delete Forward
    pub const DELETE_FORWARD: u32 = 0x0007_004c;
    /// Keyboard End
    pub const END: u32 = 0x0007_004d;
    /// Keyboard PageDown
    pub const PAGE_DOWN: u32 = 0x0007_004e;
    /// Keyboard RightArrow
    pub const RIGHT_ARROW: u32 = 0x0007_004f;
    /// Keyboard LeftArrow
    pub const LEFT_ARROW: u32 = 0x0007_0050;
    /// Keyboard DownArrow
    pub const DOWN_ARROW: u32 = 0x0007_0051;
    /// Keyboard UpArrow
    pub const UP_ARROW: u32 = 0x0007_0052;
    /// Keypad Num Lock and Clear
    pub const KEYPAD_NUM_LOCK: u32 = 0x0007_0053;
    /// Keypad /
    pub const KEYPAD_SLASH: u32 = 0x0007_0054;
    /// Keypad *
    pub const KEYPAD_ASTERISK: u32 = 0x0007_0055;
    /// Keypad -
    pub const KEYPAD_MINUS: u32 = 0x0007_0056;
    /// Keypad +
    pub const KEYPAD_PLUS: u32 = 0x0007_0057;
    /// Keypad ENTER
    pub const KEYPAD_ENTER: u32 = 0x0007_0058;
    /// Keypad 1 and End
    pub const KEYPAD_1: u32 = 0x0007_0059;
    /// Keypad 2 and Down Arrow
    pub const KEYPAD_2: u32 = 0x0007_005a;
    /// Keypad 3 and PageDn
    pub const KEYPAD_3: u32 = 0x0007_005b;
    /// Keypad 4 and Left Arrow
    pub const KEYPAD_4: u32 = 0x0007_005c;
    /// Keypad 5
    pub const KEYPAD_5: u32 = 0x0007_005d;
    /// Keypad 6 and Right Arrow
    pub const KEYPAD_6: u32 = 0x0007_005e;
    /// Keypad 7 and Home
    pub const KEYPAD_7: u32 = 0x0007_005f;
    /// Keypad 8 and Up Arrow
    pub const KEYPAD_8: u32 = 0x0007_0060;
    /// Keypad 9 and PageUp
    pub const KEYPAD_9: u32 = 0x0007_0061;
    /// Keypad 0 and Insert
    pub const KEYPAD_0: u32 = 0x0007_0062;
    /// Keypad . and Delete
    pub const KEYPAD_DOT: u32 = 0x0007_0063;
    /// Keyboard Non-US \ and bar
    pub const NON_US_BACKSLASH: u32 = 0x0007_0064;
    /// Keyboard Application
    pub const APPLICATION: u32 = 0x0007_0065;
    /// Keyboard Power
    pub const POWER: u32 = 0x0007_0066;
    /// Keypad =
    pub const KEYPAD_EQUALS: u32 = 0x0007_0067;
    /// Keyboard F13
    pub const F13: u32 = 0x0007_0068;
    /// Keyboard F14
    pub const F14: u32 = 0x0007_0069;
    /// Keyboard F15
    pub const F15: u32 = 0x0007_006a;
    /// Keyboard F16
    pub const F16: u32 = 0x0007_006b;
    /// Keyboard F17
    pub const F17: u32 = 0x0007_006c;
    /// Keyboard F18
    pub const F18: u32 = 0x0007_006d;
    /// Keyboard F19
    pub const F19: u32 = 0x0007_006e;
    /// Keyboard F20
    pub const F20: u32 = 0x0007_006f;
    /// Keyboard F21
    pub const F21: u32 = 0x0007_0070;
    /// Keyboard F22
    pub const F22: u32 = 0x0007_0071;
    /// Keyboard F23
    pub const F23: u32 = 0x0007_0072;
    /// Keyboard F24
    pub const F24: u32 = 0x0007_0073;
    /// Keyboard Execute
    pub const EXECUTE: u32 = 0x0007_0074;
    /// Keyboard Help
    pub const HELP: u32 = 0x0007_0075;
    /// Keyboard Menu
    pub const MENU: u32 = 0x0007_0076;
    /// Keyboard Select
    pub const SELECT: u32 = 0x0007_0077;
    /// Keyboard Stop
    pub const STOP: u32 = 0x0007_0078;
    /// Keyboard Again
    pub const AGAIN: u32 = 0x0007_0079;
    /// Keyboard Undo
    pub const UNDO: u32 = 0x0007_007a;
    /// Keyboard Cut
    pub const CUT: u32 = 0x0007_007b;
    /// Keyboard Copy
    pub const COPY: u32 = 0x0007_007c;
    /// Keyboard Paste
    pub const PASTE: u32 = 0x0007_007d;
    /// Keyboard Find
    pub const FIND: u32 = 0x0007_007e;
    /// Keyboard Mute
    pub const MUTE: u32 = 0x0007_007f;
    /// Keyboard Volume Up
    pub const VOLUME_UP: u32 = 0x0007_0080;
    /// Keyboard Volume Down
    pub const VOLUME_DOWN: u32 = 0x0007_0081;
    /// Keyboard Locking Caps Lock
    pub const LOCKING_CAPS_LOCK: u32 = 0x0007_0082;
    /// Keyboard Locking Num Lock
    pub const LOCKING_NUM_LOCK: u32 = 0x0007_0083;
    /// Keyboard Locking Scroll Lock
    pub const LOCKING_SCROLL_LOCK: u32 = 0x0007_0084;
    /// Keypad Comma
    pub const KEYPAD_COMMA: u32 = 0x0007_0085;
    /// Keypad Equal Sign
    pub const KEYPAD_EQUAL_SIGN: u32 = 0x0007_0086;
    /// Keyboard International1
    pub const INTERNATIONAL1: u32 = 0x0007_0087;
    /// Keyboard International2
    pub const INTERNATIONAL2: u32 = 0x0007_0088;
    /// Keyboard International3
    pub const INTERNATIONAL3: u32 = 0x0007_0089;
    /// Keyboard International4
    pub const INTERNATIONAL4: u32 = 0x0007_008a;
    /// Keyboard International5
    pub const INTERNATIONAL5: u32 = 0x0007_008b;
    /// Keyboard International6
    pub const INTERNATIONAL6: u32 = 0x0007_008c;
    /// Keyboard International7
    pub const INTERNATIONAL7: u32 = 0x0007_008d;
    /// Keyboard International8
    pub const INTERNATIONAL8: u32 = 0x0007_008e;
    /// Keyboard International9
    pub const INTERNATIONAL9: u32 = 0x0007_008f;
    /// Keyboard LANG1
    pub const LANG1: u32 = 0x0007_0090;
    /// Keyboard LANG2
    pub const LANG2: u32 = 0x0007_0091;
    /// Keyboard LANG3
    pub const LANG3: u32 = 0x0007_0092;
    /// Keyboard LANG4
    pub const LANG4: u32 = 0x0007_0093;
    /// Keyboard LANG5
    pub const LANG5: u32 = 0x0007_0094;
    /// Keyboard LANG6
    pub const LANG6: u32 = 0x0007_0095;
    /// Keyboard LANG7
    pub const LANG7: u32 = 0x0007_0096;
    /// Keyboard LANG8
    pub const LANG8: u32 = 0x0007_0097;
    /// Keyboard LANG9
    pub const LANG9: u32 = 0x0007_0098;
    /// Keyboard Alternate Erase
    pub const ALTERNATE_ERASE: u32 = 0x0007_0099;
    /// Keyboard SysReq/Attention
    pub const SYS_REQ_ATTENTION: u32 = 0x0007_009a;
    /// Keyboard Cancel
    pub const CANCEL: u32 = 0x0007_009b;
    /// Keyboard Clear
    pub const CLEAR: u32 = 0x0007_009c;
    /// Keyboard Prior
    pub const PRIOR: u32 = 0x0007_009d;
    /// Keyboard Return
    pub const RETURN: u32 = 0x0007_009e;
    /// Keyboard Separator
    pub const SEPARATOR: u32 = 0x0007_009f;
    /// Keyboard Out
    pub const OUT: u32 = 0x0007_00a0;
    /// Keyboard Oper
    pub const OPER: u32 = 0x0007_00a1;
    /// Keyboard Clear/Again
    pub const CLEAR_AGAIN: u32 = 0x0007_00a2;
    /// Keyboard CrSel/Props
    pub const CR_SEL_PROPS: u32 = 0x0007_00a3;
    /// Keyboard ExSel
    pub const EX_SEL: u32 = 0x0007_00a4;
    /// Keypad 00
    pub const KEYPAD_00: u32 = 0x0007_00b0;
    /// Keypad 000
    pub const KEYPAD_000: u32 = 0x0007_00b1;
    /// Keypad Thousands Separator
    pub const KEYPAD_THOUSANDS_SEPARATOR: u32 = 0x0007_00b2;
    /// Keypad Decimal Separator
    pub const KEYPAD_DECIMAL_SEPARATOR: u32 = 0x0007_00b3;
    /// Keypad Currency Unit
    pub const KEYPAD_CURRENCY_UNIT: u32 = 0x0007_00b4;
    /// Keypad Currency Sub-unit
    pub const KEYPAD_CURRENCY_SUB_UNIT: u32 = 0x0007_00b5;
    /// Keypad (
    pub const KEYPAD_LEFT_PARENTHESIS: u32 = 0x0007_00b6;
    /// Keypad )
    pub const KEYPAD_RIGHT_PARENTHESIS: u32 = 0x0007_00b7;
    /// Keypad {
    pub const KEYPAD_LEFT_BRACE: u32 = 0x0007_00b8;
    /// Keypad }
    pub const KEYPAD_RIGHT_BRACE: u32 = 0x0007_00b9;
    /// Keypad Tab
    pub const KEYPAD_TAB: u32 = 0x0007_00ba;
    /// Keypad Backspace
    pub const KEYPAD_BACKSPACE: u32 = 0x0007_00bb;
    /// Keypad A
    pub const KEYPAD_A: u32 = 0x0007_00bc;
    /// Keypad B
    pub const KEYPAD_B: u32 = 0x0007_00bd;
    /// Keypad C
    pub const KEYPAD_C: u32 = 0x0007_00be;
    /// Keypad D
    pub const KEYPAD_D: u32 = 0x0007_00bf;
    /// Keypad E
    pub const KEYPAD_E: u32 = 0x0007_00c0;
    /// Keypad F
    pub const KEYPAD_F: u32 = 0x0007_00c1;
    /// Keypad XOR
    pub const KEYPAD_XOR: u32 = 0x0007_00c2;
    /// Keypad ^
    pub const KEYPAD_CARET: u32 = 0x0007_00c3;
    /// Keypad %
    pub const KEYPAD_PERCENT: u32 = 0x0007_00c4;
    /// Keypad <
    pub const KEYPAD_LESS: u32 = 0x0007_00c5;
    /// Keypad >
    pub const KEYPAD_GREATER: u32 = 0x0007_00c6;
    /// Keypad &
    pub const KEYPAD_AMPERSAND: u32 = 0x0007_00c7;
    /// Keypad &&
    pub const KEYPAD_AMPERSAND_AMPERSAND: u32 = 0x0007_00c8;
    /// Keypad bar
    pub const KEYPAD_BAR: u32 = 0x0007_00c9;
    /// Keypad double bar
    pub const KEYPAD_DOUBLE_BAR: u32 = 0x0007_00ca;
    /// Keypad :
    pub const KEYPAD_COLON: u32 = 0x0007_00cb;
    /// Keypad #
    pub const KEYPAD_HASH: u32 = 0x0007_00cc;
    /// Keypad Space
    pub const KEYPAD_SPACE: u32 = 0x0007_00cd;
    /// Keypad @
    pub const KEYPAD_AT: u32 = 0x0007_00ce;
    /// Keypad !
    pub const KEYPAD_EXCLAMATION_MARK: u32 = 0x0007_00cf;
    /// Keypad Memory Store
    pub const KEYPAD_MEMORY_STORE: u32 = 0x0007_00d0;
    /// Keypad Memory Recall
    pub const KEYPAD_MEMORY_RECALL: u32 = 0x0007_00d1;
    /// Keypad Memory Clear
    pub const KEYPAD_MEMORY_CLEAR: u32 = 0x0007_00d2;
    /// Keypad Memory Add
    pub const KEYPAD_MEMORY_ADD: u32 = 0x0007_00d3;
    /// Keypad Memory Subtract
    pub const KEYPAD_MEMORY_SUBTRACT: u32 = 0x0007_00d4;
    /// Keypad Memory Multiply
    pub const KEYPAD_MEMORY_MULTIPLY: u32 = 0x0007_00d5;
    /// Keypad Memory Divide
    pub const KEYPAD_MEMORY_DIVIDE: u32 = 0x0007_00d6;
    /// Keypad +/-
    pub const KEYPAD_PLUS_SLASH_MINUS: u32 = 0x0007_00d7;
    /// Keypad Clear
    pub const KEYPAD_CLEAR: u32 = 0x0007_00d8;
    /// Keypad Clear Entry
    pub const KEYPAD_CLEAR_ENTRY: u32 = 0x0007_00d9;
    /// Keypad Binary
    pub const KEYPAD_BINARY: u32 = 0x0007_00da;
    /// Keypad Octal
    pub const KEYPAD_OCTAL: u32 = 0x0007_00db;
    /// Keypad Decimal
    pub const KEYPAD_DECIMAL: u32 = 0x0007_00dc;
    /// Keypad Hexadecimal
    pub const KEYPAD_HEXADECIMAL: u32 = 0x0007_00dd;
    /// Keyboard LeftControl
    pub const LEFT_CONTROL: u32 = 0x0007_00e0;
    /// Keyboard LeftShift
    pub const LEFT_SHIFT: u32 = 0x0007_00e1;
    /// Keyboard LeftAlt
    pub const LEFT_ALT: u32 = 0x0007_00e2;
    /// Keyboard Left GUI
    pub const LEFT_GUI: u32 = 0x0007_00e3;
    /// Keyboard RightControl
    pub const RIGHT_CONTROL: u32 = 0x0007_00e4;
    /// Keyboard RightShift
    pub const RIGHT_SHIFT: u32 = 0x0007_00e5;
    /// Keyboard RightAlt
    pub const RIGHT_ALT: u32 = 0x0007_00e6;
    /// Keyboard Right GUI
    pub const RIGHT_GUI: u32 = 0x0007_00e7;
}

/// The page LED.
pub mod led {
    /// The number of the page: the high half of each usage.
    pub const PAGE: u32 = 0x0008;
    /// Num Lock
    pub const NUM_LOCK: u32 = 0x0008_0001;
    /// Caps Lock
    pub const CAPS_LOCK: u32 = 0x0008_0002;
    /// Scroll Lock
    pub const SCROLL_LOCK: u32 = 0x0008_0003;
    /// Compose
    pub const COMPOSE: u32 = 0x0008_0004;
    /// Kana
    pub const KANA: u32 = 0x0008_0005;
    /// Power
    pub const POWER: u32 = 0x0008_0006;
    /// Shift
    pub const SHIFT: u32 = 0x0008_0007;
    /// Do Not Disturb
    pub const DO_NOT_DISTURB: u32 = 0x0008_0008;
    /// Mute
    pub const MUTE: u32 = 0x0008_0009;
    /// Tone Enable
    pub const TONE_ENABLE: u32 = 0x0008_000a;
    /// High Cut Filter
    pub const HIGH_CUT_FILTER: u32 = 0x0008_000b;
    /// Low Cut Filter
    pub const LOW_CUT_FILTER: u32 = 0x0008_000c;
    /// Equalizer Enable
    pub const EQUALIZER_ENABLE: u32 = 0x0008_000d;
    /// Sound Field On
    pub const SOUND_FIELD_ON: u32 = 0x0008_000e;
    /// Surround On
    pub const SURROUND_ON: u32 = 0x0008_000f;
    /// Repeat
    pub const REPEAT: u32 = 0x0008_0010;
    /// Stereo
    pub const STEREO: u32 = 0x0008_0011;
    /// Sampling Rate Detect
    pub const SAMPLING_RATE_DETECT: u32 = 0x0008_0012;
    /// Spinning
    pub const SPINNING: u32 = 0x0008_0013;
    /// CAV
    pub const CAV: u32 = 0x0008_0014;
    /// CLV
    pub const CLV: u32 = 0x0008_0015;
    /// Recording Format Detect
    pub const RECORDING_FORMAT_DETECT: u32 = 0x0008_0016;
    /// Off-Hook
    pub const OFF_HOOK: u32 = 0x0008_0017;
    /// Ring
    pub const RING: u32 = 0x0008_0018;
    /// Message Waiting
    pub const MESSAGE_WAITING: u32 = 0x0008_0019;
    /// Data Mode
    pub const DATA_MODE: u32 = 0x0008_001a;
    /// Battery Operation
    pub const BATTERY_OPERATION: u32 = 0x0008_001b;
    /// Battery OK
    pub const BATTERY_OK: u32 = 0x0008_001c;
    /// Battery Low
    pub const BATTERY_LOW: u32 = 0x0008_001d;
    /// Speaker
    pub const SPEAKER: u32 = 0x0008_001e;
    /// Headset
    pub const HEADSET: u32 = 0x0008_001f;
    /// Hold
    pub const HOLD: u32 = 0x0008_0020;
    /// Microphone
    pub const MICROPHONE: u32 = 0x0008_0021;
    /// Coverage
    pub const COVERAGE: u32 = 0x0008_0022;
    /// Night Mode
    pub const NIGHT_MODE: u32 = 0x0008_0023;
    /// Send Calls
    pub const SEND_CALLS: u32 = 0x0008_0024;
    /// Call Pickup
    pub const CALL_PICKUP: u32 = 0x0008_0025;
    /// Conference
    pub const CONFERENCE: u32 = 0x0008_0026;
    /// Stand-by
    pub const STAND_BY: u32 = 0x0008_0027;
    /// Camera On
    pub const CAMERA_ON: u32 = 0x0008_0028;
    /// Camera Off
    pub const CAMERA_OFF: u32 = 0x0008_0029;
    /// On-Line
    pub const ON_LINE: u32 = 0x0008_002a;
    /// Off-Line
    pub const OFF_LINE: u32 = 0x0008_002b;
    /// Busy
    pub const BUSY: u32 = 0x0008_002c;
    /// Ready
    pub const READY: u32 = 0x0008_002d;
    /// Paper-Out
    pub const PAPER_OUT: u32 = 0x0008_002e;
    /// Paper-Jam
    pub const PAPER_JAM: u32 = 0x0008_002f;
    /// Remote
    pub const REMOTE: u32 = 0x0008_0030;
    /// Forward
    pub const FORWARD: u32 = 0x0008_0031;
    /// Reverse
    pub const REVERSE: u32 = 0x0008_0032;
    /// Stop
    pub const STOP: u32 = 0x0008_0033;
    /// Rewind
    pub const REWIND: u32 = 0x0008_0034;
    /// Fast Forward
    pub const FAST_FORWARD: u32 = 0x0008_0035;
    /// Play
    pub const PLAY: u32 = 0x0008_0036;
    /// Pause
    pub const PAUSE: u32 = 0x0008_0037;
    /// Record
    pub const RECORD: u32 = 0x0008_0038;
    /// Error
    pub const ERROR: u32 = 0x0008_0039;
    /// Usage Selected Indicator
    pub const USAGE_SELECTED_INDICATOR: u32 = 0x0008_003a;
    /// Usage In Use Indicator
    pub const USAGE_IN_USE_INDICATOR: u32 = 0x0008_003b;
    /// Usage Multi Mode Indicator
    pub const USAGE_MULTI_MODE_INDICATOR: u32 = 0x0008_003c;
    /// Indicator On
    pub const INDICATOR_ON: u32 = 0x0008_003d;
    /// Indicator Flash
    pub const INDICATOR_FLASH: u32 = 0x0008_003e;
    /// Indicator Slow Blink
    pub const INDICATOR_SLOW_BLINK: u32 = 0x0008_003f;
    /// Indicator Fast Blink
    pub const INDICATOR_FAST_BLINK: u32 = 0x0008_0040;
    /// Indicator Off
    pub const INDICATOR_OFF: u32 = 0x0008_0041;
    /// Flash On Time
    pub const FLASH_ON_TIME: u32 = 0x0008_0042;
    /// Slow Blink On Time
    pub const SLOW_BLINK_ON_TIME: u32 = 0x0008_0043;
    /// Slow Blink Off Time
    pub const SLOW_BLINK_OFF_TIME: u32 = 0x0008_0044;
    /// Fast Blink On Time
    pub const FAST_BLINK_ON_TIME: u32 = 0x0008_0045;
    /// Fast Blink Off Time
    pub const FAST_BLINK_OFF_TIME: u32 = 0x0008_0046;
    /// Usage Indicator Color
    pub const USAGE_INDICATOR_COLOR: u32 = 0x0008_0047;
    /// Indicator Red
    pub const INDICATOR_RED: u32 = 0x0008_0048;
    /// Indicator Green
    pub const INDICATOR_GREEN: u32 = 0x0008_0049;
    /// Indicator Amber
    pub const INDICATOR_AMBER: u32 = 0x0008_004a;
    /// Generic Indicator
    pub const GENERIC_INDICATOR: u32 = 0x0008_004b;
    /// System Suspend
    pub const SYSTEM_SUSPEND: u32 = 0x0008_004c;
    /// External Power Connected
    pub const EXTERNAL_POWER_CONNECTED: u32 = 0x0008_004d;
    /// Indicator Blue
    pub const INDICATOR_BLUE: u32 = 0x0008_004e;
    /// Indicator Orange
    pub const INDICATOR_ORANGE: u32 = 0x0008_004f;
    /// Good Status
    pub const GOOD_STATUS: u32 = 0x0008_0050;
    /// Warning Status
    pub const WARNING_STATUS: u32 = 0x0008_0051;
    /// RGB LED
    pub const RGB_LED: u32 = 0x0008_0052;
    /// Red LED Channel
    pub const RED_LED_CHANNEL: u32 = 0x0008_0053;
    /// Blue LED Channel
    pub const BLUE_LED_CHANNEL: u32 = 0x0008_0054;
    /// Green LED Channel
    pub const GREEN_LED_CHANNEL: u32 = 0x0008_0055;
    /// LED Intensity
    pub const LED_INTENSITY: u32 = 0x0008_0056;
    /// System Microphone Mute
    pub const SYSTEM_MICROPHONE_MUTE: u32 = 0x0008_0057;
    /// Player Indicator
    pub const PLAYER_INDICATOR: u32 = 0x0008_0060;
    /// Player 1
    pub const PLAYER_1: u32 = 0x0008_0061;
    /// Player 2
    pub const PLAYER_2: u32 = 0x0008_0062;
    /// Player 3
    pub const PLAYER_3: u32 = 0x0008_0063;
    /// Player 4
    pub const PLAYER_4: u32 = 0x0008_0064;
    /// Player 5
    pub const PLAYER_5: u32 = 0x0008_0065;
    /// Player 6
    pub const PLAYER_6: u32 = 0x0008_0066;
    /// Player 7
    pub const PLAYER_7: u32 = 0x0008_0067;
    /// Player 8
    pub const PLAYER_8: u32 = 0x0008_0068;
}

/// The page Button.
pub mod button {
    /// The number of the page: the high half of each usage.
    pub const PAGE: u32 = 0x0009;
}

/// The page Telephony.
pub mod telephony {
    /// The number of the page: the high half of each usage.
    pub const PAGE: u32 = 0x000b;
    /// Phone
    pub const PHONE: u32 = 0x000b_0001;
    /// Answering Machine
    pub const ANSWERING_MACHINE: u32 = 0x000b_0002;
    /// Message Controls
    pub const MESSAGE_CONTROLS: u32 = 0x000b_0003;
    /// Handset
    pub const HANDSET: u32 = 0x000b_0004;
    /// Headset
    pub const HEADSET: u32 = 0x000b_0005;
    /// Telephony Key Pad
    pub const TELEPHONY_KEY_PAD: u32 = 0x000b_0006;
    /// Programmable Button
    pub const PROGRAMMABLE_BUTTON: u32 = 0x000b_0007;
    /// Hook Switch
    pub const HOOK_SWITCH: u32 = 0x000b_0020;
    /// Flash
    pub const FLASH: u32 = 0x000b_0021;
    /// Feature
    pub const FEATURE: u32 = 0x000b_0022;
    /// Hold
    pub const HOLD: u32 = 0x000b_0023;
    /// Redial
    pub const REDIAL: u32 = 0x000b_0024;
    /// Transfer
    pub const TRANSFER: u32 = 0x000b_0025;
    /// Drop
    pub const DROP: u32 = 0x000b_0026;
    /// Park
    pub const PARK: u32 = 0x000b_0027;
    /// Forward Calls
    pub const FORWARD_CALLS: u32 = 0x000b_0028;
    /// Alternate Function
    pub const ALTERNATE_FUNCTION: u32 = 0x000b_0029;
    /// Line
    pub const LINE: u32 = 0x000b_002a;
    /// Speaker Phone
    pub const SPEAKER_PHONE: u32 = 0x000b_002b;
    /// Conference
    pub const CONFERENCE: u32 = 0x000b_002c;
    /// Ring Enable
    pub const RING_ENABLE: u32 = 0x000b_002d;
    /// Ring Select
    pub const RING_SELECT: u32 = 0x000b_002e;
    /// Phone Mute
    pub const PHONE_MUTE: u32 = 0x000b_002f;
    /// Caller ID
    pub const CALLER_ID: u32 = 0x000b_0030;
    /// Send
    pub const SEND: u32 = 0x000b_0031;
    /// Speed Dial
    pub const SPEED_DIAL: u32 = 0x000b_0050;
    /// Store Number
    pub const STORE_NUMBER: u32 = 0x000b_0051;
    /// Recall Number
    pub const RECALL_NUMBER: u32 = 0x000b_0052;
    /// Phone Directory
    pub const PHONE_DIRECTORY: u32 = 0x000b_0053;
    /// Voice Mail
    pub const VOICE_MAIL: u32 = 0x000b_0070;
    /// Screen Calls
    pub const SCREEN_CALLS: u32 = 0x000b_0071;
    /// Do Not Disturb
    pub const DO_NOT_DISTURB: u32 = 0x000b_0072;
    /// Message
    pub const MESSAGE: u32 = 0x000b_0073;
    /// Answer On/Off
    pub const ANSWER_ON_OFF: u32 = 0x000b_0074;
    /// Inside Dial Tone
    pub const INSIDE_DIAL_TONE: u32 = 0x000b_0090;
    /// Outside Dial Tone
    pub const OUTSIDE_DIAL_TONE: u32 = 0x000b_0091;
    /// Inside Ring Tone
    pub const INSIDE_RING_TONE: u32 = 0x000b_0092;
    /// Outside Ring Tone
    pub const OUTSIDE_RING_TONE: u32 = 0x000b_0093;
    /// Priority Ring Tone
    pub const PRIORITY_RING_TONE: u32 = 0x000b_0094;
    /// Inside Ringback
    pub const INSIDE_RINGBACK: u32 = 0x000b_0095;
    /// Priority Ringback
    pub const PRIORITY_RINGBACK: u32 = 0x000b_0096;
    /// Line Busy Tone
    pub const LINE_BUSY_TONE: u32 = 0x000b_0097;
    /// Reorder Tone
    pub const REORDER_TONE: u32 = 0x000b_0098;
    /// Call Waiting Tone
    pub const CALL_WAITING_TONE: u32 = 0x000b_0099;
    /// Confirmation Tone 1
    pub const CONFIRMATION_TONE_1: u32 = 0x000b_009a;
    /// Confirmation Tone 2
    pub const CONFIRMATION_TONE_2: u32 = 0x000b_009b;
    /// Tones Off
    pub const TONES_OFF: u32 = 0x000b_009c;
    /// Outside Ringback
    pub const OUTSIDE_RINGBACK: u32 = 0x000b_009d;
    /// Ringer
    pub const RINGER: u32 = 0x000b_009e;
    /// Phone Key 0
    pub const PHONE_KEY_0: u32 = 0x000b_00b0;
    /// Phone Key 1
    pub const PHONE_KEY_1: u32 = 0x000b_00b1;
    /// Phone Key 2
    pub const PHONE_KEY_2: u32 = 0x000b_00b2;
    /// Phone Key 3
    pub const PHONE_KEY_3: u32 = 0x000b_00b3;
    /// Phone Key 4
    pub const PHONE_KEY_4: u32 = 0x000b_00b4;
    /// Phone Key 5
    pub const PHONE_KEY_5: u32 = 0x000b_00b5;
    /// Phone Key 6
    pub const PHONE_KEY_6: u32 = 0x000b_00b6;
    /// Phone Key 7
    pub const PHONE_KEY_7: u32 = 0x000b_00b7;
    /// Phone Key 8
    pub const PHONE_KEY_8: u32 = 0x000b_00b8;
    /// Phone Key 9
    pub const PHONE_KEY_9: u32 = 0x000b_00b9;
    /// Phone Key Star
    pub const PHONE_KEY_STAR: u32 = 0x000b_00ba;
    /// Phone Key Pound
    pub const PHONE_KEY_POUND: u32 = 0x000b_00bb;
    /// Phone Key A
    pub const PHONE_KEY_A: u32 = 0x000b_00bc;
    /// Phone Key B
    pub const PHONE_KEY_B: u32 = 0x000b_00bd;
    /// Phone Key C
    pub const PHONE_KEY_C: u32 = 0x000b_00be;
    /// Phone Key D
    pub const PHONE_KEY_D: u32 = 0x000b_00bf;
    /// Phone Call History Key
    pub const PHONE_CALL_HISTORY_KEY: u32 = 0x000b_00c0;
    /// Phone Caller ID Key
    pub const PHONE_CALLER_ID_KEY: u32 = 0x000b_00c1;
    /// Phone Settings Key
    pub const PHONE_SETTINGS_KEY: u32 = 0x000b_00c2;
    /// Host Control
    pub const HOST_CONTROL: u32 = 0x000b_00f0;
    /// Host Available
    pub const HOST_AVAILABLE: u32 = 0x000b_00f1;
    /// Host Call Active
    pub const HOST_CALL_ACTIVE: u32 = 0x000b_00f2;
    /// Activate Handset Audio
    pub const ACTIVATE_HANDSET_AUDIO: u32 = 0x000b_00f3;
    /// Ring Type
    pub const RING_TYPE: u32 = 0x000b_00f4;
    /// Re-dialable Phone Number
    pub const RE_DIALABLE_PHONE_NUMBER: u32 = 0x000b_00f5;
    /// Stop Ring Tone
    pub const STOP_RING_TONE: u32 = 0x000b_00f8;
    /// PSTN Ring Tone
    pub const PSTN_RING_TONE: u32 = 0x000b_00f9;
    /// Host Ring Tone
    pub const HOST_RING_TONE: u32 = 0x000b_00fa;
    /// Alert Sound Error
    pub const ALERT_SOUND_ERROR: u32 = 0x000b_00fb;
    /// Alert Sound Confirm
    pub const ALERT_SOUND_CONFIRM: u32 = 0x000b_00fc;
    /// Alert Sound Notification
    pub const ALERT_SOUND_NOTIFICATION: u32 = 0x000b_00fd;
    /// Silent Ring
    pub const SILENT_RING: u32 = 0x000b_00fe;
    /// Email Message Waiting
    pub const EMAIL_MESSAGE_WAITING: u32 = 0x000b_0108;
    /// Voicemail Message Waiting
    pub const VOICEMAIL_MESSAGE_WAITING: u32 = 0x000b_0109;
    /// Host Hold
    pub const HOST_HOLD: u32 = 0x000b_010a;
    /// Incoming Call History Count
    pub const INCOMING_CALL_HISTORY_COUNT: u32 = 0x000b_0110;
    /// Outgoing Call History Count
    pub const OUTGOING_CALL_HISTORY_COUNT: u32 = 0x000b_0111;
    /// Incoming Call History
    pub const INCOMING_CALL_HISTORY: u32 = 0x000b_0112;
    /// Outgoing Call History
    pub const OUTGOING_CALL_HISTORY: u32 = 0x000b_0113;
    /// Phone Locale
    pub const PHONE_LOCALE: u32 = 0x000b_0114;
    /// Phone Time Second
    pub const PHONE_TIME_SECOND: u32 = 0x000b_0140;
    /// Phone Time Minute
    pub const PHONE_TIME_MINUTE: u32 = 0x000b_0141;
    /// Phone Time Hour
    pub const PHONE_TIME_HOUR: u32 = 0x000b_0142;
    /// Phone Date Day
    pub const PHONE_DATE_DAY: u32 = 0x000b_0143;
    /// Phone Date Month
    pub const PHONE_DATE_MONTH: u32 = 0x000b_0144;
    /// Phone Date Year
    pub const PHONE_DATE_YEAR: u32 = 0x000b_0145;
    /// Handset Nickname
    pub const HANDSET_NICKNAME: u32 = 0x000b_0146;
    /// Address Book ID
    pub const ADDRESS_BOOK_ID: u32 = 0x000b_0147;
    /// Call Duration
    pub const CALL_DURATION: u32 = 0x000b_014a;
    /// Dual Mode Phone
    pub const DUAL_MODE_PHONE: u32 = 0x000b_014b;
}

/// The page Consumer.
pub mod consumer {
    /// The number of the page: the high half of each usage.
    pub const PAGE: u32 = 0x000c;
    /// Consumer Control
    pub const CONSUMER_CONTROL: u32 = 0x000c_0001;
    /// Numeric Key Pad
    pub const NUMERIC_KEY_PAD: u32 = 0x000c_0002;
    /// Programmable Buttons
    pub const PROGRAMMABLE_BUTTONS: u32 = 0x000c_0003;
    /// Microphone
    pub const MICROPHONE: u32 = 0x000c_0004;
    /// Headphone
    pub const HEADPHONE: u32 = 0x000c_0005;
    /// Graphic Equalizer
    pub const GRAPHIC_EQUALIZER: u32 = 0x000c_0006;
    /// +10
    pub const PLUS_10: u32 = 0x000c_0020;
    /// +100
    pub const PLUS_100: u32 = 0x000c_0021;
    /// AM/PM
    pub const AM_PM: u32 = 0x000c_0022;
    /// Power
    pub const POWER: u32 = 0x000c_0030;
    /// Reset
    pub const RESET: u32 = 0x000c_0031;
    /// Sleep
    pub const SLEEP: u32 = 0x000c_0032;
    /// Sleep After
    pub const SLEEP_AFTER: u32 = 0x000c_0033;
    /// Sleep Mode
    pub const SLEEP_MODE: u32 = 0x000c_0034;
    /// Illumination
    pub const ILLUMINATION: u32 = 0x000c_0035;
    /// Function Buttons
    pub const FUNCTION_BUTTONS: u32 = 0x000c_0036;
    /// Menu
    pub const MENU: u32 = 0x000c_0040;
    /// Menu Pick
    pub const MENU_PICK: u32 = 0x000c_0041;
    /// Menu Up
    pub const MENU_UP: u32 = 0x000c_0042;
    /// Menu Down
    pub const MENU_DOWN: u32 = 0x000c_0043;
    /// Menu Left
    pub const MENU_LEFT: u32 = 0x000c_0044;
    /// Menu Right
    pub const MENU_RIGHT: u32 = 0x000c_0045;
    /// Menu Escape
    pub const MENU_ESCAPE: u32 = 0x000c_0046;
    /// Menu Value Increase
    pub const MENU_VALUE_INCREASE: u32 = 0x000c_0047;
    /// Menu Value Decrease
    pub const MENU_VALUE_DECREASE: u32 = 0x000c_0048;
    /// Data On Screen
    pub const DATA_ON_SCREEN: u32 = 0x000c_0060;
    /// Closed Caption
    pub const CLOSED_CAPTION: u32 = 0x000c_0061;
    /// Closed Caption Select
    pub const CLOSED_CAPTION_SELECT: u32 = 0x000c_0062;
    /// VCR/TV
    pub const VCR_TV: u32 = 0x000c_0063;
    /// Broadcast Mode
    pub const BROADCAST_MODE: u32 = 0x000c_0064;
    /// Snapshot
    pub const SNAPSHOT: u32 = 0x000c_0065;
    /// Still
    pub const STILL: u32 = 0x000c_0066;
    /// Picture-in-Picture Toggle
    pub const PICTURE_IN_PICTURE_TOGGLE: u32 = 0x000c_0067;
    /// Picture-in-Picture Swap
    pub const PICTURE_IN_PICTURE_SWAP: u32 = 0x000c_0068;
    /// Red Menu Button
    pub const RED_MENU_BUTTON: u32 = 0x000c_0069;
    /// Green Menu Button
    pub const GREEN_MENU_BUTTON: u32 = 0x000c_006a;
    /// Blue Menu Button
    pub const BLUE_MENU_BUTTON: u32 = 0x000c_006b;
    /// Yellow Menu Button
    pub const YELLOW_MENU_BUTTON: u32 = 0x000c_006c;
    /// Aspect
    pub const ASPECT: u32 = 0x000c_006d;
    /// 3D Mode Select
    pub const N3D_MODE_SELECT: u32 = 0x000c_006e;
    /// Display Brightness Increment
    pub const DISPLAY_BRIGHTNESS_INCREMENT: u32 = 0x000c_006f;
    /// Display Brightness Decrement
    pub const DISPLAY_BRIGHTNESS_DECREMENT: u32 = 0x000c_0070;
    /// Display Brightness
    pub const DISPLAY_BRIGHTNESS: u32 = 0x000c_0071;
    /// Display Backlight Toggle
    pub const DISPLAY_BACKLIGHT_TOGGLE: u32 = 0x000c_0072;
    /// Display Set Brightness to Minimum
    pub const DISPLAY_SET_BRIGHTNESS_TO_MINIMUM: u32 = 0x000c_0073;
    /// Display Set Brightness to Maximum
    pub const DISPLAY_SET_BRIGHTNESS_TO_MAXIMUM: u32 = 0x000c_0074;
    /// Display Set Auto Brightness
    pub const DISPLAY_SET_AUTO_BRIGHTNESS: u32 = 0x000c_0075;
    /// Camera Access Enabled
    pub const CAMERA_ACCESS_ENABLED: u32 = 0x000c_0076;
    /// Camera Access Disabled
    pub const CAMERA_ACCESS_DISABLED: u32 = 0x000c_0077;
    /// Camera Access Toggle
    pub const CAMERA_ACCESS_TOGGLE: u32 = 0x000c_0078;
    /// Keyboard Brightness Increment
    pub const KEYBOARD_BRIGHTNESS_INCREMENT: u32 = 0x000c_0079;
    /// Keyboard Brightness Decrement
    pub const KEYBOARD_BRIGHTNESS_DECREMENT: u32 = 0x000c_007a;
    /// Keyboard Backlight Set Level
    pub const KEYBOARD_BACKLIGHT_SET_LEVEL: u32 = 0x000c_007b;
    /// Keyboard Backlight OOC
    pub const KEYBOARD_BACKLIGHT_OOC: u32 = 0x000c_007c;
    /// Keyboard Backlight Set Minimum
    pub const KEYBOARD_BACKLIGHT_SET_MINIMUM: u32 = 0x000c_007d;
    /// Keyboard Backlight Set Maximum
    pub const KEYBOARD_BACKLIGHT_SET_MAXIMUM: u32 = 0x000c_007e;
    /// Keyboard Backlight Auto
    pub const KEYBOARD_BACKLIGHT_AUTO: u32 = 0x000c_007f;
    /// Selection
    pub const SELECTION: u32 = 0x000c_0080;
    /// Assign Selection
    pub const ASSIGN_SELECTION: u32 = 0x000c_0081;
    /// Mode Step
    pub const MODE_STEP: u32 = 0x000c_0082;
    /// Recall Last
    pub const RECALL_LAST: u32 = 0x000c_0083;
    /// Enter Channel
    pub const ENTER_CHANNEL: u32 = 0x000c_0084;
    /// Order Movie
    pub const ORDER_MOVIE: u32 = 0x000c_0085;
    /// Channel
    pub const CHANNEL: u32 = 0x000c_0086;
    /// Media Selection
    pub const MEDIA_SELECTION: u32 = 0x000c_0087;
    /// Media Select Computer
    pub const MEDIA_SELECT_COMPUTER: u32 = 0x000c_0088;
    /// Media Select TV
    pub const MEDIA_SELECT_TV: u32 = 0x000c_0089;
    /// Media Select WWW
    pub const MEDIA_SELECT_WWW: u32 = 0x000c_008a;
    /// Media Select DVD
    pub const MEDIA_SELECT_DVD: u32 = 0x000c_008b;
    /// Media Select Telephone
    pub const MEDIA_SELECT_TELEPHONE: u32 = 0x000c_008c;
    /// Media Select Program Guide
    pub const MEDIA_SELECT_PROGRAM_GUIDE: u32 = 0x000c_008d;
    /// Media Select Video Phone
    pub const MEDIA_SELECT_VIDEO_PHONE: u32 = 0x000c_008e;
    /// Media Select Games
    pub const MEDIA_SELECT_GAMES: u32 = 0x000c_008f;
    /// Media Select Messages
    pub const MEDIA_SELECT_MESSAGES: u32 = 0x000c_0090;
    /// Media Select CD
    pub const MEDIA_SELECT_CD: u32 = 0x000c_0091;
    /// Media Select VCR
    pub const MEDIA_SELECT_VCR: u32 = 0x000c_0092;
    /// Media Select Tuner
    pub const MEDIA_SELECT_TUNER: u32 = 0x000c_0093;
    /// Quit
    pub const QUIT: u32 = 0x000c_0094;
    /// Help
    pub const HELP: u32 = 0x000c_0095;
    /// Media Select Tape
    pub const MEDIA_SELECT_TAPE: u32 = 0x000c_0096;
    /// Media Select Cable
    pub const MEDIA_SELECT_CABLE: u32 = 0x000c_0097;
    /// Media Select Satellite
    pub const MEDIA_SELECT_SATELLITE: u32 = 0x000c_0098;
    /// Media Select Security
    pub const MEDIA_SELECT_SECURITY: u32 = 0x000c_0099;
    /// Media Select Home
    pub const MEDIA_SELECT_HOME: u32 = 0x000c_009a;
    /// Media Select Call
    pub const MEDIA_SELECT_CALL: u32 = 0x000c_009b;
    /// Channel Increment
    pub const CHANNEL_INCREMENT: u32 = 0x000c_009c;
    /// Channel Decrement
    pub const CHANNEL_DECREMENT: u32 = 0x000c_009d;
    /// Media Select SAP
    pub const MEDIA_SELECT_SAP: u32 = 0x000c_009e;
    /// VCR Plus
    pub const VCR_PLUS: u32 = 0x000c_00a0;
    /// Once
    pub const ONCE: u32 = 0x000c_00a1;
    /// Daily
    pub const DAILY: u32 = 0x000c_00a2;
    /// Weekly
    pub const WEEKLY: u32 = 0x000c_00a3;
    /// Monthly
    pub const MONTHLY: u32 = 0x000c_00a4;
    /// Play
    pub const PLAY: u32 = 0x000c_00b0;
    /// Pause
    pub const PAUSE: u32 = 0x000c_00b1;
    /// Record
    pub const RECORD: u32 = 0x000c_00b2;
    /// Fast Forward
    pub const FAST_FORWARD: u32 = 0x000c_00b3;
    /// Rewind
    pub const REWIND: u32 = 0x000c_00b4;
    /// Scan Next Track
    pub const SCAN_NEXT_TRACK: u32 = 0x000c_00b5;
    /// Scan Previous Track
    pub const SCAN_PREVIOUS_TRACK: u32 = 0x000c_00b6;
    /// Stop
    pub const STOP: u32 = 0x000c_00b7;
    /// Eject
    pub const EJECT: u32 = 0x000c_00b8;
    /// Random Play
    pub const RANDOM_PLAY: u32 = 0x000c_00b9;
    /// Select Disc
    pub const SELECT_DISC: u32 = 0x000c_00ba;
    /// Enter Disc
    pub const ENTER_DISC: u32 = 0x000c_00bb;
    /// Repeat
    pub const REPEAT: u32 = 0x000c_00bc;
    /// Tracking
    pub const TRACKING: u32 = 0x000c_00bd;
    /// Track Normal
    pub const TRACK_NORMAL: u32 = 0x000c_00be;
    /// Slow Tracking
    pub const SLOW_TRACKING: u32 = 0x000c_00bf;
    /// Frame Forward
    pub const FRAME_FORWARD: u32 = 0x000c_00c0;
    /// Frame Back
    pub const FRAME_BACK: u32 = 0x000c_00c1;
    /// Mark
    pub const MARK: u32 = 0x000c_00c2;
    /// Clear Mark
    pub const CLEAR_MARK: u32 = 0x000c_00c3;
    /// Repeat From Mark
    pub const REPEAT_FROM_MARK: u32 = 0x000c_00c4;
    /// Return To Mark
    pub const RETURN_TO_MARK: u32 = 0x000c_00c5;
    /// Search Mark Forward
    pub const SEARCH_MARK_FORWARD: u32 = 0x000c_00c6;
    /// Search Mark Backwards
    pub const SEARCH_MARK_BACKWARDS: u32 = 0x000c_00c7;
    /// Counter Reset
    pub const COUNTER_RESET: u32 = 0x000c_00c8;
    /// Show Counter
    pub const SHOW_COUNTER: u32 = 0x000c_00c9;
    /// Tracking Increment
    pub const TRACKING_INCREMENT: u32 = 0x000c_00ca;
    /// Tracking Decrement
    pub const TRACKING_DECREMENT: u32 = 0x000c_00cb;
    /// Stop/Eject
    pub const STOP_EJECT: u32 = 0x000c_00cc;
    /// Play/Pause
    pub const PLAY_PAUSE: u32 = 0x000c_00cd;
    /// Play/Skip
    pub const PLAY_SKIP: u32 = 0x000c_00ce;
    /// Voice Command
    pub const VOICE_COMMAND: u32 = 0x000c_00cf;
    /// Invoke Capture Interface
    pub const INVOKE_CAPTURE_INTERFACE: u32 = 0x000c_00d0;
    /// Start or Stop Game Recording
    pub const START_OR_STOP_GAME_RECORDING: u32 = 0x000c_00d1;
    /// Historical Game Capture
    pub const HISTORICAL_GAME_CAPTURE: u32 = 0x000c_00d2;
    /// Capture Game Screenshot
    pub const CAPTURE_GAME_SCREENSHOT: u32 = 0x000c_00d3;
    /// Show or Hide Recording Indicator
    pub const SHOW_OR_HIDE_RECORDING_INDICATOR: u32 = 0x000c_00d4;
    /// Start or Stop Microphone Capture
    pub const START_OR_STOP_MICROPHONE_CAPTURE: u32 = 0x000c_00d5;
    /// Start or Stop Camera Capture
    pub const START_OR_STOP_CAMERA_CAPTURE: u32 = 0x000c_00d6;
    /// Start or Stop Game Broadcast
    pub const START_OR_STOP_GAME_BROADCAST: u32 = 0x000c_00d7;
    /// Start or Stop Voice Dictation Session
    pub const START_OR_STOP_VOICE_DICTATION_SESSION: u32 = 0x000c_00d8;
    /// Invoke/Dismiss Emoji Picker
    pub const INVOKE_DISMISS_EMOJI_PICKER: u32 = 0x000c_00d9;
    /// Volume
    pub const VOLUME: u32 = 0x000c_00e0;
    /// Balance
    pub const BALANCE: u32 = 0x000c_00e1;
    /// Mute
    pub const MUTE: u32 = 0x000c_00e2;
    /// Bass
    pub const BASS: u32 = 0x000c_00e3;
    /// Treble
    pub const TREBLE: u32 = 0x000c_00e4;
    /// Bass Boost
    pub const BASS_BOOST: u32 = 0x000c_00e5;
    /// Surround Mode
    pub const SURROUND_MODE: u32 = 0x000c_00e6;
    /// Loudness
    pub const LOUDNESS: u32 = 0x000c_00e7;
    /// MPX
    pub const MPX: u32 = 0x000c_00e8;
    /// Volume Increment
    pub const VOLUME_INCREMENT: u32 = 0x000c_00e9;
    /// Volume Decrement
    pub const VOLUME_DECREMENT: u32 = 0x000c_00ea;
    /// Speed Select
    pub const SPEED_SELECT: u32 = 0x000c_00f0;
    /// Playback Speed
    pub const PLAYBACK_SPEED: u32 = 0x000c_00f1;
    /// Standard Play
    pub const STANDARD_PLAY: u32 = 0x000c_00f2;
    /// Long Play
    pub const LONG_PLAY: u32 = 0x000c_00f3;
    /// Extended Play
    pub const EXTENDED_PLAY: u32 = 0x000c_00f4;
    /// Slow
    pub const SLOW: u32 = 0x000c_00f5;
    /// Fan Enable
    pub const FAN_ENABLE: u32 = 0x000c_0100;
    /// Fan Speed
    pub const FAN_SPEED: u32 = 0x000c_0101;
    /// Light Enable
    pub const LIGHT_ENABLE: u32 = 0x000c_0102;
    /// Light Illumination Level
    pub const LIGHT_ILLUMINATION_LEVEL: u32 = 0x000c_0103;
    /// Climate Control Enable
    pub const CLIMATE_CONTROL_ENABLE: u32 = 0x000c_0104;
    /// Room Temperature
    pub const ROOM_TEMPERATURE: u32 = 0x000c_0105;
    /// Security Enable
    pub const SECURITY_ENABLE: u32 = 0x000c_0106;
    /// Fire Alarm
    pub const FIRE_ALARM: u32 = 0x000c_0107;
    /// Police Alarm
    pub const POLICE_ALARM: u32 = 0x000c_0108;
    /// Proximity
    pub const PROXIMITY: u32 = 0x000c_0109;
    /// Motion
    pub const MOTION: u32 = 0x000c_010a;
    /// Duress Alarm
    pub const DURESS_ALARM: u32 = 0x000c_010b;
    /// Holdup Alarm
    pub const HOLDUP_ALARM: u32 = 0x000c_010c;
    /// Medical Alarm
    pub const MEDICAL_ALARM: u32 = 0x000c_010d;
    /// Balance Right
    pub const BALANCE_RIGHT: u32 = 0x000c_0150;
    /// Balance Left
    pub const BALANCE_LEFT: u32 = 0x000c_0151;
    /// Bass Increment
    pub const BASS_INCREMENT: u32 = 0x000c_0152;
    /// Bass Decrement
    pub const BASS_DECREMENT: u32 = 0x000c_0153;
    /// Treble Increment
    pub const TREBLE_INCREMENT: u32 = 0x000c_0154;
    /// Treble Decrement
    pub const TREBLE_DECREMENT: u32 = 0x000c_0155;
    /// Speaker System
    pub const SPEAKER_SYSTEM: u32 = 0x000c_0160;
    /// Channel Left
    pub const CHANNEL_LEFT: u32 = 0x000c_0161;
    /// Channel Right
    pub const CHANNEL_RIGHT: u32 = 0x000c_0162;
    /// Channel Center
    pub const CHANNEL_CENTER: u32 = 0x000c_0163;
    /// Channel Front
    pub const CHANNEL_FRONT: u32 = 0x000c_0164;
    /// Channel Center Front
    pub const CHANNEL_CENTER_FRONT: u32 = 0x000c_0165;
    /// Channel Side
    pub const CHANNEL_SIDE: u32 = 0x000c_0166;
    /// Channel Surround
    pub const CHANNEL_SURROUND: u32 = 0x000c_0167;
    /// Channel Low Frequency Enhancement
    pub const CHANNEL_LOW_FREQUENCY_ENHANCEMENT: u32 = 0x000c_0168;
    /// Channel Top
    pub const CHANNEL_TOP: u32 = 0x000c_0169;
    /// Channel Unknown
    pub const CHANNEL_UNKNOWN: u32 = 0x000c_016a;
    /// Sub-channel
    pub const SUB_CHANNEL: u32 = 0x000c_0170;
    /// Sub-channel Increment
    pub const SUB_CHANNEL_INCREMENT: u32 = 0x000c_0171;
    /// Sub-channel Decrement
    pub const SUB_CHANNEL_DECREMENT: u32 = 0x000c_0172;
    /// Alternate Audio Increment
    pub const ALTERNATE_AUDIO_INCREMENT: u32 = 0x000c_0173;
    /// Alternate Audio Decrement
    pub const ALTERNATE_AUDIO_DECREMENT: u32 = 0x000c_0174;
    /// Application Launch Buttons
    pub const APPLICATION_LAUNCH_BUTTONS: u32 = 0x000c_0180;
    /// AL Launch Button Configuration Tool
    pub const AL_LAUNCH_BUTTON_CONFIGURATION_TOOL: u32 = 0x000c_0181;
    /// AL Programmable Button Configuration
    pub const AL_PROGRAMMABLE_BUTTON_CONFIGURATION: u32 = 0x000c_0182;
    /// AL Consumer Control Configuration
    pub const AL_CONSUMER_CONTROL_CONFIGURATION: u32 = 0x000c_0183;
    /// AL Word Processor
    pub const AL_WORD_PROCESSOR: u32 = 0x000c_0184;
    /// AL Text Editor
    pub const AL_TEXT_EDITOR: u32 = 0x000c_0185;
    /// AL Spreadsheet
    pub const AL_SPREADSHEET: u32 = 0x000c_0186;
    /// AL Graphics Editor
    pub const AL_GRAPHICS_EDITOR: u32 = 0x000c_0187;
    /// AL Presentation App
    pub const AL_PRESENTATION_APP: u32 = 0x000c_0188;
    /// AL Database App
    pub const AL_DATABASE_APP: u32 = 0x000c_0189;
    /// AL Email Reader
    pub const AL_EMAIL_READER: u32 = 0x000c_018a;
    /// AL Newsreader
    pub const AL_NEWSREADER: u32 = 0x000c_018b;
    /// AL Voicemail
    pub const AL_VOICEMAIL: u32 = 0x000c_018c;
    /// AL Contacts/Address Book
    pub const AL_CONTACTS_ADDRESS_BOOK: u32 = 0x000c_018d;
    /// AL Calendar/Schedule
    pub const AL_CALENDAR_SCHEDULE: u32 = 0x000c_018e;
    /// AL Task/Project Manager
    pub const AL_TASK_PROJECT_MANAGER: u32 = 0x000c_018f;
    /// AL Log/Journal/Timecard
    pub const AL_LOG_JOURNAL_TIMECARD: u32 = 0x000c_0190;
    /// AL Checkbook/Finance
    pub const AL_CHECKBOOK_FINANCE: u32 = 0x000c_0191;
    /// AL Calculator
    pub const AL_CALCULATOR: u32 = 0x000c_0192;
    /// AL A/V Capture/Playback
    pub const AL_A_V_CAPTURE_PLAYBACK: u32 = 0x000c_0193;
    /// AL Local Machine Browser
    pub const AL_LOCAL_MACHINE_BROWSER: u32 = 0x000c_0194;
    /// AL LAN/WAN Browser
    pub const AL_LAN_WAN_BROWSER: u32 = 0x000c_0195;
    /// AL Internet Browser
    pub const AL_INTERNET_BROWSER: u32 = 0x000c_0196;
    /// AL Remote Networking/ISP Connect
    pub const AL_REMOTE_NETWORKING_ISP_CONNECT: u32 = 0x000c_0197;
    /// AL Network Conference
    pub const AL_NETWORK_CONFERENCE: u32 = 0x000c_0198;
    /// AL Network Chat
    pub const AL_NETWORK_CHAT: u32 = 0x000c_0199;
    /// AL Telephony/Dialer
    pub const AL_TELEPHONY_DIALER: u32 = 0x000c_019a;
    /// AL Logon
    pub const AL_LOGON: u32 = 0x000c_019b;
    /// AL Logoff
    pub const AL_LOGOFF: u32 = 0x000c_019c;
    /// AL Logon/Logoff
    pub const AL_LOGON_LOGOFF: u32 = 0x000c_019d;
    /// AL Terminal Lock/Screensaver
    pub const AL_TERMINAL_LOCK_SCREENSAVER: u32 = 0x000c_019e;
    /// AL Control Panel
    pub const AL_CONTROL_PANEL: u32 = 0x000c_019f;
    /// AL Command Line Processor/Run
    pub const AL_COMMAND_LINE_PROCESSOR_RUN: u32 = 0x000c_01a0;
    /// AL Process/Task Manager
    pub const AL_PROCESS_TASK_MANAGER: u32 = 0x000c_01a1;
    /// AL Select Task/Application
    pub const AL_SELECT_TASK_APPLICATION: u32 = 0x000c_01a2;
    /// AL Next Task/Application
    pub const AL_NEXT_TASK_APPLICATION: u32 = 0x000c_01a3;
    /// AL Previous Task/Application
    pub const AL_PREVIOUS_TASK_APPLICATION: u32 = 0x000c_01a4;
    /// AL Preemptive Halt Task/Application
    pub const AL_PREEMPTIVE_HALT_TASK_APPLICATION: u32 = 0x000c_01a5;
    /// AL Integrated Help Center
    pub const AL_INTEGRATED_HELP_CENTER: u32 = 0x000c_01a6;
    /// AL Documents
    pub const AL_DOCUMENTS: u32 = 0x000c_01a7;
    /// AL Thesaurus
    pub const AL_THESAURUS: u32 = 0x000c_01a8;
    /// AL Dictionary
    pub const AL_DICTIONARY: u32 = 0x000c_01a9;
    /// AL Desktop
    pub const AL_DESKTOP: u32 = 0x000c_01aa;
    /// AL Spell Check
    pub const AL_SPELL_CHECK: u32 = 0x000c_01ab;
    /// AL Grammar Check
    pub const AL_GRAMMAR_CHECK: u32 = 0x000c_01ac;
    /// AL Wireless Status
    pub const AL_WIRELESS_STATUS: u32 = 0x000c_01ad;
    /// AL Keyboard Layout
    pub const AL_KEYBOARD_LAYOUT: u32 = 0x000c_01ae;
    /// AL Virus Protection
    pub const AL_VIRUS_PROTECTION: u32 = 0x000c_01af;
    /// AL Encryption
    pub const AL_ENCRYPTION: u32 = 0x000c_01b0;
    /// AL Screen Saver
    pub const AL_SCREEN_SAVER: u32 = 0x000c_01b1;
    /// AL Alarms
    pub const AL_ALARMS: u32 = 0x000c_01b2;
    /// AL Clock
    pub const AL_CLOCK: u32 = 0x000c_01b3;
    /// AL File Browser
    pub const AL_FILE_BROWSER: u32 = 0x000c_01b4;
    /// AL Power Status
    pub const AL_POWER_STATUS: u32 = 0x000c_01b5;
    /// AL Image Browser
    pub const AL_IMAGE_BROWSER: u32 = 0x000c_01b6;
    /// AL Audio Browser
    pub const AL_AUDIO_BROWSER: u32 = 0x000c_01b7;
    /// AL Movie Browser
    pub const AL_MOVIE_BROWSER: u32 = 0x000c_01b8;
    /// AL Digital Rights Manager
    pub const AL_DIGITAL_RIGHTS_MANAGER: u32 = 0x000c_01b9;
    /// AL Digital Wallet
    pub const AL_DIGITAL_WALLET: u32 = 0x000c_01ba;
    /// AL Instant Messaging
    pub const AL_INSTANT_MESSAGING: u32 = 0x000c_01bc;
    /// AL OEM Features/Tips/Tutorial Browser
    pub const AL_OEM_FEATURES_TIPS_TUTORIAL_BROWSER: u32 = 0x000c_01bd;
    /// AL OEM Help
    pub const AL_OEM_HELP: u32 = 0x000c_01be;
    /// AL Online Community
    pub const AL_ONLINE_COMMUNITY: u32 = 0x000c_01bf;
    /// AL Entertainment Content Browser
    pub const AL_ENTERTAINMENT_CONTENT_BROWSER: u32 = 0x000c_01c0;
    /// AL Online Shopping Browser
    pub const AL_ONLINE_SHOPPING_BROWSER: u32 = 0x000c_01c1;
    /// AL SmartCard Information/Help
    pub const AL_SMART_CARD_INFORMATION_HELP: u32 = 0x000c_01c2;
    /// AL Market Monitor/Finance Browser
    pub const AL_MARKET_MONITOR_FINANCE_BROWSER: u32 = 0x000c_01c3;
    /// AL Customized Corporate News Browser
    pub const AL_CUSTOMIZED_CORPORATE_NEWS_BROWSER: u32 = 0x000c_01c4;
    /// AL Online Activity Browser
    pub const AL_ONLINE_ACTIVITY_BROWSER: u32 = 0x000c_01c5;
    /// AL Research/Search Browser
    pub const AL_RESEARCH_SEARCH_BROWSER: u32 = 0x000c_01c6;
    /// AL Audio Player
    pub const AL_AUDIO_PLAYER: u32 = 0x000c_01c7;
    /// AL Message Status
    pub const AL_MESSAGE_STATUS: u32 = 0x000c_01c8;
    /// AL Contact Sync
    pub const AL_CONTACT_SYNC: u32 = 0x000c_01c9;
    /// AL Navigation
    pub const AL_NAVIGATION: u32 = 0x000c_01ca;
    /// AL Context-aware Desktop Assistant
    pub const AL_CONTEXT_AWARE_DESKTOP_ASSISTANT: u32 = 0x000c_01cb;
    /// Generic GUI Application Controls
    pub const GENERIC_GUI_APPLICATION_CONTROLS: u32 = 0x000c_0200;
    /// AC New
    pub const AC_NEW: u32 = 0x000c_0201;
    /// AC Open
    pub const AC_OPEN: u32 = 0x000c_0202;
    /// AC Close
    pub const AC_CLOSE: u32 = 0x000c_0203;
    /// AC Exit
    pub const AC_EXIT: u32 = 0x000c_0204;
    /// AC Maximize
    pub const AC_MAXIMIZE: u32 = 0x000c_0205;
    /// AC Minimize
    pub const AC_MINIMIZE: u32 = 0x000c_0206;
    /// AC Save
    pub const AC_SAVE: u32 = 0x000c_0207;
    /// AC Print
    pub const AC_PRINT: u32 = 0x000c_0208;
    /// AC Properties
    pub const AC_PROPERTIES: u32 = 0x000c_0209;
    /// AC Undo
    pub const AC_UNDO: u32 = 0x000c_021a;
    /// AC Copy
    pub const AC_COPY: u32 = 0x000c_021b;
    /// AC Cut
    pub const AC_CUT: u32 = 0x000c_021c;
    /// AC Paste
    pub const AC_PASTE: u32 = 0x000c_021d;
    /// AC Select All
    pub const AC_SELECT_ALL: u32 = 0x000c_021e;
    /// AC Find
    pub const AC_FIND: u32 = 0x000c_021f;
    /// AC Find and Replace
    pub const AC_FIND_AND_REPLACE: u32 = 0x000c_0220;
    /// AC Search
    pub const AC_SEARCH: u32 = 0x000c_0221;
    /// AC Go To
    pub const AC_GO_TO: u32 = 0x000c_0222;
    /// AC Home
    pub const AC_HOME: u32 = 0x000c_0223;
    /// AC Back
    pub const AC_BACK: u32 = 0x000c_0224;
    /// AC Forward
    pub const AC_FORWARD: u32 = 0x000c_0225;
    /// AC Stop
    pub const AC_STOP: u32 = 0x000c_0226;
    /// AC Refresh
    pub const AC_REFRESH: u32 = 0x000c_0227;
    /// AC Previous Link
    pub const AC_PREVIOUS_LINK: u32 = 0x000c_0228;
    /// AC Next Link
    pub const AC_NEXT_LINK: u32 = 0x000c_0229;
    /// AC Bookmarks
    pub const AC_BOOKMARKS: u32 = 0x000c_022a;
    /// AC History
    pub const AC_HISTORY: u32 = 0x000c_022b;
    /// AC Subscriptions
    pub const AC_SUBSCRIPTIONS: u32 = 0x000c_022c;
    /// AC Zoom In
    pub const AC_ZOOM_IN: u32 = 0x000c_022d;
    /// AC Zoom Out
    pub const AC_ZOOM_OUT: u32 = 0x000c_022e;
    /// AC Zoom
    pub const AC_ZOOM: u32 = 0x000c_022f;
    /// AC Full Screen View
    pub const AC_FULL_SCREEN_VIEW: u32 = 0x000c_0230;
    /// AC Normal View
    pub const AC_NORMAL_VIEW: u32 = 0x000c_0231;
    /// AC View Toggle
    pub const AC_VIEW_TOGGLE: u32 = 0x000c_0232;
    /// AC Scroll Up
    pub const AC_SCROLL_UP: u32 = 0x000c_0233;
    /// AC Scroll Down
    pub const AC_SCROLL_DOWN: u32 = 0x000c_0234;
    /// AC Scroll
    pub const AC_SCROLL: u32 = 0x000c_0235;
    /// AC Pan Left
    pub const AC_PAN_LEFT: u32 = 0x000c_0236;
    /// AC Pan Right
    pub const AC_PAN_RIGHT: u32 = 0x000c_0237;
    /// AC Pan
    pub const AC_PAN: u32 = 0x000c_0238;
    /// AC New Window
    pub const AC_NEW_WINDOW: u32 = 0x000c_0239;
    /// AC Tile Horizontally
    pub const AC_TILE_HORIZONTALLY: u32 = 0x000c_023a;
    /// AC Tile Vertically
    pub const AC_TILE_VERTICALLY: u32 = 0x000c_023b;
    /// AC Format
    pub const AC_FORMAT: u32 = 0x000c_023c;
    /// AC Edit
    pub const AC_EDIT: u32 = 0x000c_023d;
    /// AC Bold
    pub const AC_BOLD: u32 = 0x000c_023e;
    /// AC Italics
    pub const AC_ITALICS: u32 = 0x000c_023f;
    /// AC Underline
    pub const AC_UNDERLINE: u32 = 0x000c_0240;
    /// AC Strikethrough
    pub const AC_STRIKETHROUGH: u32 = 0x000c_0241;
    /// AC Subscript
    pub const AC_SUBSCRIPT: u32 = 0x000c_0242;
    /// AC Superscript
    pub const AC_SUPERSCRIPT: u32 = 0x000c_0243;
    /// AC All Caps
    pub const AC_ALL_CAPS: u32 = 0x000c_0244;
    /// AC Rotate
    pub const AC_ROTATE: u32 = 0x000c_0245;
    /// AC Resize
    pub const AC_RESIZE: u32 = 0x000c_0246;
    /// AC Flip Horizontal
    pub const AC_FLIP_HORIZONTAL: u32 = 0x000c_0247;
    /// AC Flip Vertical
    pub const AC_FLIP_VERTICAL: u32 = 0x000c_0248;
    /// AC Mirror Horizontal
    pub const AC_MIRROR_HORIZONTAL: u32 = 0x000c_0249;
    /// AC Mirror Vertical
    pub const AC_MIRROR_VERTICAL: u32 = 0x000c_024a;
    /// AC Font Select
    pub const AC_FONT_SELECT: u32 = 0x000c_024b;
    /// AC Font Color
    pub const AC_FONT_COLOR: u32 = 0x000c_024c;
    /// AC Font Size
    pub const AC_FONT_SIZE: u32 = 0x000c_024d;
    /// AC Justify Left
    pub const AC_JUSTIFY_LEFT: u32 = 0x000c_024e;
    /// AC Justify Center H
    pub const AC_JUSTIFY_CENTER_H: u32 = 0x000c_024f;
    /// AC Justify Right
    pub const AC_JUSTIFY_RIGHT: u32 = 0x000c_0250;
    /// AC Justify Block H
    pub const AC_JUSTIFY_BLOCK_H: u32 = 0x000c_0251;
    /// AC Justify Top
    pub const AC_JUSTIFY_TOP: u32 = 0x000c_0252;
    /// AC Justify Center V
    pub const AC_JUSTIFY_CENTER_V: u32 = 0x000c_0253;
    /// AC Justify Bottom
    pub const AC_JUSTIFY_BOTTOM: u32 = 0x000c_0254;
    /// AC Justify Block V
    pub const AC_JUSTIFY_BLOCK_V: u32 = 0x000c_0255;
    /// AC Indent Decrease
    pub const AC_INDENT_DECREASE: u32 = 0x000c_0256;
    /// AC Indent Increase
    pub const AC_INDENT_INCREASE: u32 = 0x000c_0257;
    /// AC Numbered List
    pub const AC_NUMBERED_LIST: u32 = 0x000c_0258;
    /// AC Restart Numbering
    pub const AC_RESTART_NUMBERING: u32 = 0x000c_0259;
    /// AC Bulleted List
    pub const AC_BULLETED_LIST: u32 = 0x000c_025a;
    /// AC Promote
    pub const AC_PROMOTE: u32 = 0x000c_025b;
    /// AC Demote
    pub const AC_DEMOTE: u32 = 0x000c_025c;
    /// AC Yes
    pub const AC_YES: u32 = 0x000c_025d;
    /// AC No
    pub const AC_NO: u32 = 0x000c_025e;
    /// AC Cancel
    pub const AC_CANCEL: u32 = 0x000c_025f;
    /// AC Catalog
    pub const AC_CATALOG: u32 = 0x000c_0260;
    /// AC Buy/Checkout
    pub const AC_BUY_CHECKOUT: u32 = 0x000c_0261;
    /// AC Add to Cart
    pub const AC_ADD_TO_CART: u32 = 0x000c_0262;
    /// AC Expand
    pub const AC_EXPAND: u32 = 0x000c_0263;
    /// AC Expand All
    pub const AC_EXPAND_ALL: u32 = 0x000c_0264;
    /// AC Collapse
    pub const AC_COLLAPSE: u32 = 0x000c_0265;
    /// AC Collapse All
    pub const AC_COLLAPSE_ALL: u32 = 0x000c_0266;
    /// AC Print Preview
    pub const AC_PRINT_PREVIEW: u32 = 0x000c_0267;
    /// AC Paste Special
    pub const AC_PASTE_SPECIAL: u32 = 0x000c_0268;
    /// AC Insert Mode
    pub const AC_INSERT_MODE: u32 = 0x000c_0269;
    /// AC Delete
    pub const AC_DELETE: u32 = 0x000c_026a;
    /// AC Lock
    pub const AC_LOCK: u32 = 0x000c_026b;
    /// AC Unlock
    pub const AC_UNLOCK: u32 = 0x000c_026c;
    /// AC Protect
    pub const AC_PROTECT: u32 = 0x000c_026d;
    /// AC Unprotect
    pub const AC_UNPROTECT: u32 = 0x000c_026e;
    /// AC Attach Comment
    pub const AC_ATTACH_COMMENT: u32 = 0x000c_026f;
    /// AC Delete Comment
    pub const AC_DELETE_COMMENT: u32 = 0x000c_0270;
    /// AC View Comment
    pub const AC_VIEW_COMMENT: u32 = 0x000c_0271;
    /// AC Select Word
    pub const AC_SELECT_WORD: u32 = 0x000c_0272;
    /// AC Select Sentence
    pub const AC_SELECT_SENTENCE: u32 = 0x000c_0273;
    /// AC Select Paragraph
    pub const AC_SELECT_PARAGRAPH: u32 = 0x000c_0274;
    /// AC Select Column
    pub const AC_SELECT_COLUMN: u32 = 0x000c_0275;
    /// AC Select Row
    pub const AC_SELECT_ROW: u32 = 0x000c_0276;
    /// AC Select Table
    pub const AC_SELECT_TABLE: u32 = 0x000c_0277;
    /// AC Select Object
    pub const AC_SELECT_OBJECT: u32 = 0x000c_0278;
    /// AC Redo/Repeat
    pub const AC_REDO_REPEAT: u32 = 0x000c_0279;
    /// AC Sort
    pub const AC_SORT: u32 = 0x000c_027a;
    /// AC Sort Ascending
    pub const AC_SORT_ASCENDING: u32 = 0x000c_027b;
    /// AC Sort Descending
    pub const AC_SORT_DESCENDING: u32 = 0x000c_027c;
    /// AC Filter
    pub const AC_FILTER: u32 = 0x000c_027d;
    /// AC Set Clock
    pub const AC_SET_CLOCK: u32 = 0x000c_027e;
    /// AC View Clock
    pub const AC_VIEW_CLOCK: u32 = 0x000c_027f;
    /// AC Select Time Zone
    pub const AC_SELECT_TIME_ZONE: u32 = 0x000c_0280;
    /// AC Edit Time Zones
    pub const AC_EDIT_TIME_ZONES: u32 = 0x000c_0281;
    /// AC Set Alarm
    pub const AC_SET_ALARM: u32 = 0x000c_0282;
    /// AC Clear Alarm
    pub const AC_CLEAR_ALARM: u32 = 0x000c_0283;
    /// AC Snooze Alarm
    pub const AC_SNOOZE_ALARM: u32 = 0x000c_0284;
    /// AC Reset Alarm
    pub const AC_RESET_ALARM: u32 = 0x000c_0285;
    /// AC Synchronize
    pub const AC_SYNCHRONIZE: u32 = 0x000c_0286;
    /// AC Send/Receive
    pub const AC_SEND_RECEIVE: u32 = 0x000c_0287;
    /// AC Send To
    pub const AC_SEND_TO: u32 = 0x000c_0288;
    /// AC Reply
    pub const AC_REPLY: u32 = 0x000c_0289;
    /// AC Reply All
    pub const AC_REPLY_ALL: u32 = 0x000c_028a;
    /// AC Forward Msg
    pub const AC_FORWARD_MSG: u32 = 0x000c_028b;
    /// AC Send
    pub const AC_SEND: u32 = 0x000c_028c;
    /// AC Attach File
    pub const AC_ATTACH_FILE: u32 = 0x000c_028d;
    /// AC Upload
    pub const AC_UPLOAD: u32 = 0x000c_028e;
    /// AC Download (Save Target As)
    pub const AC_DOWNLOAD_SAVE_TARGET_AS: u32 = 0x000c_028f;
    /// AC Set Borders
    pub const AC_SET_BORDERS: u32 = 0x000c_0290;
    /// AC Insert Row
    pub const AC_INSERT_ROW: u32 = 0x000c_0291;
    /// AC Insert Column
    pub const AC_INSERT_COLUMN: u32 = 0x000c_0292;
    /// AC Insert File
    pub const AC_INSERT_FILE: u32 = 0x000c_0293;
    /// AC Insert Picture
    pub const AC_INSERT_PICTURE: u32 = 0x000c_0294;
    /// AC Insert Object
    pub const AC_INSERT_OBJECT: u32 = 0x000c_0295;
    /// AC Insert Symbol
    pub const AC_INSERT_SYMBOL: u32 = 0x000c_0296;
    /// AC Save and Close
    pub const AC_SAVE_AND_CLOSE: u32 = 0x000c_0297;
    /// AC Rename
    pub const AC_RENAME: u32 = 0x000c_0298;
    /// AC Merge
    pub const AC_MERGE: u32 = 0x000c_0299;
    /// AC Split
    pub const AC_SPLIT: u32 = 0x000c_029a;
    /// AC Distribute Horizontally
    pub const AC_DISTRIBUTE_HORIZONTALLY: u32 = 0x000c_029b;
    /// AC Distribute Vertically
    pub const AC_DISTRIBUTE_VERTICALLY: u32 = 0x000c_029c;
    /// AC Next Keyboard Layout Select
    pub const AC_NEXT_KEYBOARD_LAYOUT_SELECT: u32 = 0x000c_029d;
    /// AC Navigation Guidance
    pub const AC_NAVIGATION_GUIDANCE: u32 = 0x000c_029e;
    /// AC Desktop Show All Windows
    pub const AC_DESKTOP_SHOW_ALL_WINDOWS: u32 = 0x000c_029f;
    /// AC Soft Key Left
    pub const AC_SOFT_KEY_LEFT: u32 = 0x000c_02a0;
    /// AC Soft Key Right
    pub const AC_SOFT_KEY_RIGHT: u32 = 0x000c_02a1;
    /// AC Desktop Show All Applications
    pub const AC_DESKTOP_SHOW_ALL_APPLICATIONS: u32 = 0x000c_02a2;
    /// AC Idle Keep Alive
    pub const AC_IDLE_KEEP_ALIVE: u32 = 0x000c_02b0;
    /// Extended Keyboard Attributes Collection
    pub const EXTENDED_KEYBOARD_ATTRIBUTES_COLLECTION: u32 = 0x000c_02c0;
    /// Keyboard Form Factor
    pub const KEYBOARD_FORM_FACTOR: u32 = 0x000c_02c1;
    /// Keyboard Key Type
    pub const KEYBOARD_KEY_TYPE: u32 = 0x000c_02c2;
    /// Keyboard Physical Layout
    pub const KEYBOARD_PHYSICAL_LAYOUT: u32 = 0x000c_02c3;
    /// Vendor-Specific Keyboard Physical Layout
    pub const VENDOR_SPECIFIC_KEYBOARD_PHYSICAL_LAYOUT: u32 = 0x000c_02c4;
    /// Keyboard IETF Language Tag Index
    pub const KEYBOARD_IETF_LANGUAGE_TAG_INDEX: u32 = 0x000c_02c5;
    /// Implemented Keyboard Input Assist Controls
    pub const IMPLEMENTED_KEYBOARD_INPUT_ASSIST_CONTROLS: u32 = 0x000c_02c6;
    /// Keyboard Input Assist Previous
    pub const KEYBOARD_INPUT_ASSIST_PREVIOUS: u32 = 0x000c_02c7;
    /// Keyboard Input Assist Next
    pub const KEYBOARD_INPUT_ASSIST_NEXT: u32 = 0x000c_02c8;
    /// Keyboard Input Assist Previous Group
    pub const KEYBOARD_INPUT_ASSIST_PREVIOUS_GROUP: u32 = 0x000c_02c9;
    /// Keyboard Input Assist Next Group
    pub const KEYBOARD_INPUT_ASSIST_NEXT_GROUP: u32 = 0x000c_02ca;
    /// Keyboard Input Assist Accept
    pub const KEYBOARD_INPUT_ASSIST_ACCEPT: u32 = 0x000c_02cb;
    /// Keyboard Input Assist Cancel
    pub const KEYBOARD_INPUT_ASSIST_CANCEL: u32 = 0x000c_02cc;
    /// Privacy Screen Toggle
    pub const PRIVACY_SCREEN_TOGGLE: u32 = 0x000c_02d0;
    /// Privacy Screen Level Decrement
    pub const PRIVACY_SCREEN_LEVEL_DECREMENT: u32 = 0x000c_02d1;
    /// Privacy Screen Level Increment
    pub const PRIVACY_SCREEN_LEVEL_INCREMENT: u32 = 0x000c_02d2;
    /// Privacy Screen Level Minimum
    pub const PRIVACY_SCREEN_LEVEL_MINIMUM: u32 = 0x000c_02d3;
    /// Privacy Screen Level Maximum
    pub const PRIVACY_SCREEN_LEVEL_MAXIMUM: u32 = 0x000c_02d4;
    /// Contact Edited
    pub const CONTACT_EDITED: u32 = 0x000c_0500;
    /// Contact Added
    pub const CONTACT_ADDED: u32 = 0x000c_0501;
    /// Contact Record Active
    pub const CONTACT_RECORD_ACTIVE: u32 = 0x000c_0502;
    /// Contact Index
    pub const CONTACT_INDEX: u32 = 0x000c_0503;
    /// Contact Nickname
    pub const CONTACT_NICKNAME: u32 = 0x000c_0504;
    /// Contact First Name
    pub const CONTACT_FIRST_NAME: u32 = 0x000c_0505;
    /// Contact Last Name
    pub const CONTACT_LAST_NAME: u32 = 0x000c_0506;
    /// Contact Full Name
    pub const CONTACT_FULL_NAME: u32 = 0x000c_0507;
    /// Contact Phone Number Personal
    pub const CONTACT_PHONE_NUMBER_PERSONAL: u32 = 0x000c_0508;
    /// Contact Phone Number Business
    pub const CONTACT_PHONE_NUMBER_BUSINESS: u32 = 0x000c_0509;
    /// Contact Phone Number Mobile
    pub const CONTACT_PHONE_NUMBER_MOBILE: u32 = 0x000c_050a;
    /// Contact Phone Number Pager
    pub const CONTACT_PHONE_NUMBER_PAGER: u32 = 0x000c_050b;
    /// Contact Phone Number Fax
    pub const CONTACT_PHONE_NUMBER_FAX: u32 = 0x000c_050c;
    /// Contact Phone Number Other
    pub const CONTACT_PHONE_NUMBER_OTHER: u32 = 0x000c_050d;
    /// Contact Email Personal
    pub const CONTACT_EMAIL_PERSONAL: u32 = 0x000c_050e;
    /// Contact Email Business
    pub const CONTACT_EMAIL_BUSINESS: u32 = 0x000c_050f;
    /// Contact Email Other
    pub const CONTACT_EMAIL_OTHER: u32 = 0x000c_0510;
    /// Contact Email Main
    pub const CONTACT_EMAIL_MAIN: u32 = 0x000c_0511;
    /// Contact Speed Dial Number
    pub const CONTACT_SPEED_DIAL_NUMBER: u32 = 0x000c_0512;
    /// Contact Status Flag
    pub const CONTACT_STATUS_FLAG: u32 = 0x000c_0513;
    /// Contact Misc.
    pub const CONTACT_MISC: u32 = 0x000c_0514;
}

/// The page Digitizers.
pub mod digitizers {
    /// The number of the page: the high half of each usage.
    pub const PAGE: u32 = 0x000d;
    /// Digitizer
    pub const DIGITIZER: u32 = 0x000d_0001;
    /// Pen
    pub const PEN: u32 = 0x000d_0002;
    /// Light Pen
    pub const LIGHT_PEN: u32 = 0x000d_0003;
    /// Touch Screen
    pub const TOUCH_SCREEN: u32 = 0x000d_0004;
    /// Touch Pad
    pub const TOUCH_PAD: u32 = 0x000d_0005;
    /// Whiteboard
    pub const WHITEBOARD: u32 = 0x000d_0006;
    /// Coordinate Measuring Machine
    pub const COORDINATE_MEASURING_MACHINE: u32 = 0x000d_0007;
    /// 3D Digitizer
    pub const N3D_DIGITIZER: u32 = 0x000d_0008;
    /// Stereo Plotter
    pub const STEREO_PLOTTER: u32 = 0x000d_0009;
    /// Articulated Arm
    pub const ARTICULATED_ARM: u32 = 0x000d_000a;
    /// Armature
    pub const ARMATURE: u32 = 0x000d_000b;
    /// Multiple Point Digitizer
    pub const MULTIPLE_POINT_DIGITIZER: u32 = 0x000d_000c;
    /// Free Space Wand
    pub const FREE_SPACE_WAND: u32 = 0x000d_000d;
    /// Device Configuration
    pub const DEVICE_CONFIGURATION: u32 = 0x000d_000e;
    /// Capacitive Heat Map Digitizer
    pub const CAPACITIVE_HEAT_MAP_DIGITIZER: u32 = 0x000d_000f;
    /// Stylus
    pub const STYLUS: u32 = 0x000d_0020;
    /// Puck
    pub const PUCK: u32 = 0x000d_0021;
    /// Finger
    pub const FINGER: u32 = 0x000d_0022;
    /// Device Settings
    pub const DEVICE_SETTINGS: u32 = 0x000d_0023;
    /// Character Gesture
    pub const CHARACTER_GESTURE: u32 = 0x000d_0024;
    /// Tip Pressure
    pub const TIP_PRESSURE: u32 = 0x000d_0030;
    /// Barrel Pressure
    pub const BARREL_PRESSURE: u32 = 0x000d_0031;
    /// In Range
    pub const IN_RANGE: u32 = 0x000d_0032;
    /// Touch
    pub const TOUCH: u32 = 0x000d_0033;
    /// Untouch
    pub const UNTOUCH: u32 = 0x000d_0034;
    /// Tap
    pub const TAP: u32 = 0x000d_0035;
    /// Quality
    pub const QUALITY: u32 = 0x000d_0036;
    /// Data Valid
    pub const DATA_VALID: u32 = 0x000d_0037;
    /// Transducer Index
    pub const TRANSDUCER_INDEX: u32 = 0x000d_0038;
    /// Tablet Function Keys
    pub const TABLET_FUNCTION_KEYS: u32 = 0x000d_0039;
    /// Program Change Keys
    pub const PROGRAM_CHANGE_KEYS: u32 = 0x000d_003a;
    /// Battery Strength
    pub const BATTERY_STRENGTH: u32 = 0x000d_003b;
    /// Invert
    pub const INVERT: u32 = 0x000d_003c;
    /// X Tilt
    pub const X_TILT: u32 = 0x000d_003d;
    /// Y Tilt
    pub const Y_TILT: u32 = 0x000d_003e;
    /// Azimuth
    pub const AZIMUTH: u32 = 0x000d_003f;
    /// Altitude
    pub const ALTITUDE: u32 = 0x000d_0040;
    /// Twist
    pub const TWIST: u32 = 0x000d_0041;
    /// Tip Switch
    pub const TIP_SWITCH: u32 = 0x000d_0042;
    /// Secondary Tip Switch
    pub const SECONDARY_TIP_SWITCH: u32 = 0x000d_0043;
    /// Barrel Switch
    pub const BARREL_SWITCH: u32 = 0x000d_0044;
    /// Eraser
    pub const ERASER: u32 = 0x000d_0045;
    /// Tablet Pick
    pub const TABLET_PICK: u32 = 0x000d_0046;
    /// Touch Valid
    pub const TOUCH_VALID: u32 = 0x000d_0047;
    /// Width
    pub const WIDTH: u32 = 0x000d_0048;
    /// Height
    pub const HEIGHT: u32 = 0x000d_0049;
    /// Contact Identifier
    pub const CONTACT_IDENTIFIER: u32 = 0x000d_0051;
    /// Device Mode
    pub const DEVICE_MODE: u32 = 0x000d_0052;
    /// Device Identifier
    pub const DEVICE_IDENTIFIER: u32 = 0x000d_0053;
    /// Contact Count
    pub const CONTACT_COUNT: u32 = 0x000d_0054;
    /// Contact Count Maximum
    pub const CONTACT_COUNT_MAXIMUM: u32 = 0x000d_0055;
    /// Scan Time
    pub const SCAN_TIME: u32 = 0x000d_0056;
    /// Surface Switch
    pub const SURFACE_SWITCH: u32 = 0x000d_0057;
    /// Button Switch
    pub const BUTTON_SWITCH: u32 = 0x000d_0058;
    /// Pad Type
    pub const PAD_TYPE: u32 = 0x000d_0059;
    /// Secondary Barrel Switch
    pub const SECONDARY_BARREL_SWITCH: u32 = 0x000d_005a;
    /// Transducer Serial Number
    pub const TRANSDUCER_SERIAL_NUMBER: u32 = 0x000d_005b;
    /// Preferred Color
    pub const PREFERRED_COLOR: u32 = 0x000d_005c;
    /// Preferred Color is Locked
    pub const PREFERRED_COLOR_IS_LOCKED: u32 = 0x000d_005d;
    /// Preferred Line Width
    pub const PREFERRED_LINE_WIDTH: u32 = 0x000d_005e;
    /// Preferred Line Width is Locked
    pub const PREFERRED_LINE_WIDTH_IS_LOCKED: u32 = 0x000d_005f;
    /// Latency Mode
    pub const LATENCY_MODE: u32 = 0x000d_0060;
    /// Gesture Character Quality
    pub const GESTURE_CHARACTER_QUALITY: u32 = 0x000d_0061;
    /// Character Gesture Data Length
    pub const CHARACTER_GESTURE_DATA_LENGTH: u32 = 0x000d_0062;
    /// Character Gesture Data
    pub const CHARACTER_GESTURE_DATA: u32 = 0x000d_0063;
    /// Gesture Character Encoding
    pub const GESTURE_CHARACTER_ENCODING: u32 = 0x000d_0064;
    /// UTF8 Character Gesture Encoding
    pub const UTF8_CHARACTER_GESTURE_ENCODING: u32 = 0x000d_0065;
    /// UTF16 Little Endian Character Gesture Encoding
    pub const UTF16_LITTLE_ENDIAN_CHARACTER_GESTURE_ENCODING: u32 = 0x000d_0066;
    /// UTF16 Big Endian Character Gesture Encoding
    pub const UTF16_BIG_ENDIAN_CHARACTER_GESTURE_ENCODING: u32 = 0x000d_0067;
    /// UTF32 Little Endian Character Gesture Encoding
    pub const UTF32_LITTLE_ENDIAN_CHARACTER_GESTURE_ENCODING: u32 = 0x000d_0068;
    /// UTF32 Big Endian Character Gesture Encoding
    pub const UTF32_BIG_ENDIAN_CHARACTER_GESTURE_ENCODING: u32 = 0x000d_0069;
    /// Capacitive Heat Map Protocol Vendor ID
    pub const CAPACITIVE_HEAT_MAP_PROTOCOL_VENDOR_ID: u32 = 0x000d_006a;
    /// Capacitive Heat Map Protocol Version
    pub const CAPACITIVE_HEAT_MAP_PROTOCOL_VERSION: u32 = 0x000d_006b;
    /// Capacitive Heat Map Frame Data
    pub const CAPACITIVE_HEAT_MAP_FRAME_DATA: u32 = 0x000d_006c;
    /// Gesture Character Enable
    pub const GESTURE_CHARACTER_ENABLE: u32 = 0x000d_006d;
    /// Transducer Serial Number Part 2
    pub const TRANSDUCER_SERIAL_NUMBER_PART_2: u32 = 0x000d_006e;
    /// No Preferred Color
    pub const NO_PREFERRED_COLOR: u32 = 0x000d_006f;
    /// Preferred Line Style
    pub const PREFERRED_LINE_STYLE: u32 = 0x000d_0070;
    /// Preferred Line Style is Locked
    pub const PREFERRED_LINE_STYLE_IS_LOCKED: u32 = 0x000d_0071;
    /// Ink
    pub const INK: u32 = 0x000d_0072;
    /// Pencil
    pub const PENCIL: u32 = 0x000d_0073;
    /// Highlighter
    pub const HIGHLIGHTER: u32 = 0x000d_0074;
    /// Chisel Marker
    pub const CHISEL_MARKER: u32 = 0x000d_0075;
    /// Brush
    pub const BRUSH: u32 = 0x000d_0076;
    /// No Preference
    pub const NO_PREFERENCE: u32 = 0x000d_0077;
    /// Digitizer Diagnostic
    pub const DIGITIZER_DIAGNOSTIC: u32 = 0x000d_0080;
    /// Digitizer Error
    pub const DIGITIZER_ERROR: u32 = 0x000d_0081;
    /// Err Normal Status
    pub const ERR_NORMAL_STATUS: u32 = 0x000d_0082;
    /// Err Transducers Exceeded
    pub const ERR_TRANSDUCERS_EXCEEDED: u32 = 0x000d_0083;
    /// Err Full Trans Features Unavailable
    pub const ERR_FULL_TRANS_FEATURES_UNAVAILABLE: u32 = 0x000d_0084;
    /// Err Charge Low
    pub const ERR_CHARGE_LOW: u32 = 0x000d_0085;
    /// Transducer Software Info
    pub const TRANSDUCER_SOFTWARE_INFO: u32 = 0x000d_0090;
    /// Transducer Vendor ID
    pub const TRANSDUCER_VENDOR_ID: u32 = 0x000d_0091;
    /// Transducer Product ID
    pub const TRANSDUCER_PRODUCT_ID: u32 = 0x000d_0092;
    /// Device Supported Protocols
    pub const DEVICE_SUPPORTED_PROTOCOLS: u32 = 0x000d_0093;
    /// Transducer Supported Protocols
    pub const TRANSDUCER_SUPPORTED_PROTOCOLS: u32 = 0x000d_0094;
    /// No Protocol
    pub const NO_PROTOCOL: u32 = 0x000d_0095;
    /// Wacom AES Protocol
    pub const WACOM_AES_PROTOCOL: u32 = 0x000d_0096;
    /// USI Protocol
    pub const USI_PROTOCOL: u32 = 0x000d_0097;
    /// Microsoft Pen Protocol
    pub const MICROSOFT_PEN_PROTOCOL: u32 = 0x000d_0098;
    /// Supported Report Rates
    pub const SUPPORTED_REPORT_RATES: u32 = 0x000d_00a0;
    /// Report Rate
    pub const REPORT_RATE: u32 = 0x000d_00a1;
    /// Transducer Connected
    pub const TRANSDUCER_CONNECTED: u32 = 0x000d_00a2;
    /// Switch Disabled
    pub const SWITCH_DISABLED: u32 = 0x000d_00a3;
    /// Switch Unimplemented
    pub const SWITCH_UNIMPLEMENTED: u32 = 0x000d_00a4;
    /// Transducer Switches
    pub const TRANSDUCER_SWITCHES: u32 = 0x000d_00a5;
    /// Transducer Index Selector
    pub const TRANSDUCER_INDEX_SELECTOR: u32 = 0x000d_00a6;
    /// Button Press Threshold
    pub const BUTTON_PRESS_THRESHOLD: u32 = 0x000d_00b0;
}

/// The page Haptics.
pub mod haptics {
    /// The number of the page: the high half of each usage.
    pub const PAGE: u32 = 0x000e;
    /// Simple Haptic Controller
    pub const SIMPLE_HAPTIC_CONTROLLER: u32 = 0x000e_0001;
    /// Waveform List
    pub const WAVEFORM_LIST: u32 = 0x000e_0010;
    /// Duration List
    pub const DURATION_LIST: u32 = 0x000e_0011;
    /// Auto Trigger
    pub const AUTO_TRIGGER: u32 = 0x000e_0020;
    /// Manual Trigger
    pub const MANUAL_TRIGGER: u32 = 0x000e_0021;
    /// Auto Trigger Associated Control
    pub const AUTO_TRIGGER_ASSOCIATED_CONTROL: u32 = 0x000e_0022;
    /// Intensity
    pub const INTENSITY: u32 = 0x000e_0023;
    /// Repeat Count
    pub const REPEAT_COUNT: u32 = 0x000e_0024;
    /// Retrigger Period
    pub const RETRIGGER_PERIOD: u32 = 0x000e_0025;
    /// Waveform Vendor Page
    pub const WAVEFORM_VENDOR_PAGE: u32 = 0x000e_0026;
    /// Waveform Vendor ID
    pub const WAVEFORM_VENDOR_ID: u32 = 0x000e_0027;
    /// Waveform Cutoff Time
    pub const WAVEFORM_CUTOFF_TIME: u32 = 0x000e_0028;
    /// Waveform None
    pub const WAVEFORM_NONE: u32 = 0x000e_1001;
    /// Waveform Stop
    pub const WAVEFORM_STOP: u32 = 0x000e_1002;
    /// Waveform Click
    pub const WAVEFORM_CLICK: u32 = 0x000e_1003;
    /// Waveform Buzz Continuous
    pub const WAVEFORM_BUZZ_CONTINUOUS: u32 = 0x000e_1004;
    /// Waveform Rumble Continuous
    pub const WAVEFORM_RUMBLE_CONTINUOUS: u32 = 0x000e_1005;
    /// Waveform Press
    pub const WAVEFORM_PRESS: u32 = 0x000e_1006;
    /// Waveform Release
    pub const WAVEFORM_RELEASE: u32 = 0x000e_1007;
    /// Waveform Hover
    pub const WAVEFORM_HOVER: u32 = 0x000e_1008;
    /// Waveform Success
    pub const WAVEFORM_SUCCESS: u32 = 0x000e_1009;
    /// Waveform Error
    pub const WAVEFORM_ERROR: u32 = 0x000e_100a;
    /// Waveform Ink Continuous
    pub const WAVEFORM_INK_CONTINUOUS: u32 = 0x000e_100b;
    /// Waveform Pencil Continuous
    pub const WAVEFORM_PENCIL_CONTINUOUS: u32 = 0x000e_100c;
    /// Waveform Marker Continuous
    pub const WAVEFORM_MARKER_CONTINUOUS: u32 = 0x000e_100d;
    /// Waveform Chisel Marker Continuous
    pub const WAVEFORM_CHISEL_MARKER_CONTINUOUS: u32 = 0x000e_100e;
    /// Waveform Brush Continuous
    pub const WAVEFORM_BRUSH_CONTINUOUS: u32 = 0x000e_100f;
    /// Waveform Eraser Continuous
    pub const WAVEFORM_ERASER_CONTINUOUS: u32 = 0x000e_1010;
    /// Waveform Sparkle Continuous
    pub const WAVEFORM_SPARKLE_CONTINUOUS: u32 = 0x000e_1011;
}

/// The page Sensor.
pub mod sensor {
    /// The number of the page: the high half of each usage.
    pub const PAGE: u32 = 0x0020;
    /// Sensor
    pub const SENSOR: u32 = 0x0020_0001;
    /// Biometric
    pub const BIOMETRIC: u32 = 0x0020_0010;
    /// Human Presence
    pub const HUMAN_PRESENCE: u32 = 0x0020_0011;
    /// Human Proximity
    pub const HUMAN_PROXIMITY: u32 = 0x0020_0012;
    /// Human Touch
    pub const HUMAN_TOUCH: u32 = 0x0020_0013;
    /// Blood Pressure
    pub const BLOOD_PRESSURE: u32 = 0x0020_0014;
    /// Body Temperature
    pub const BODY_TEMPERATURE: u32 = 0x0020_0015;
    /// Heart Rate
    pub const HEART_RATE: u32 = 0x0020_0016;
    /// Heart Rate Variability
    pub const HEART_RATE_VARIABILITY: u32 = 0x0020_0017;
    /// Peripheral Oxygen Saturation
    pub const PERIPHERAL_OXYGEN_SATURATION: u32 = 0x0020_0018;
    /// Respiratory Rate
    pub const RESPIRATORY_RATE: u32 = 0x0020_0019;
    /// Electrical
    pub const ELECTRICAL: u32 = 0x0020_0020;
    /// Capacitance
    pub const CAPACITANCE: u32 = 0x0020_0021;
    /// Current
    pub const CURRENT: u32 = 0x0020_0022;
    /// Power
    pub const POWER: u32 = 0x0020_0023;
    /// Inductance
    pub const INDUCTANCE: u32 = 0x0020_0024;
    /// Resistance
    pub const RESISTANCE: u32 = 0x0020_0025;
    /// Voltage
    pub const VOLTAGE: u32 = 0x0020_0026;
    /// Potentiometer
    pub const POTENTIOMETER: u32 = 0x0020_0027;
    /// Frequency
    pub const FREQUENCY: u32 = 0x0020_0028;
    /// Period
    pub const PERIOD: u32 = 0x0020_0029;
    /// Environmental
    pub const ENVIRONMENTAL: u32 = 0x0020_0030;
    /// Atmospheric Pressure
    pub const ATMOSPHERIC_PRESSURE: u32 = 0x0020_0031;
    /// Humidity
    pub const HUMIDITY: u32 = 0x0020_0032;
    /// Temperature
    pub const TEMPERATURE: u32 = 0x0020_0033;
    /// Wind Direction
    pub const WIND_DIRECTION: u32 = 0x0020_0034;
    /// Wind Speed
    pub const WIND_SPEED: u32 = 0x0020_0035;
    /// Air Quality
    pub const AIR_QUALITY: u32 = 0x0020_0036;
    /// Heat Index
    pub const HEAT_INDEX: u32 = 0x0020_0037;
    /// Surface Temperature
    pub const SURFACE_TEMPERATURE: u32 = 0x0020_0038;
    /// Volatile Organic Compounds
    pub const VOLATILE_ORGANIC_COMPOUNDS: u32 = 0x0020_0039;
    /// Object Presence
    pub const OBJECT_PRESENCE: u32 = 0x0020_003a;
    /// Object Proximity
    pub const OBJECT_PROXIMITY: u32 = 0x0020_003b;
    /// Light
    pub const LIGHT: u32 = 0x0020_0040;
    /// Ambient Light
    pub const AMBIENT_LIGHT: u32 = 0x0020_0041;
    /// Consumer Infrared
    pub const CONSUMER_INFRARED: u32 = 0x0020_0042;
    /// Infrared Light
    pub const INFRARED_LIGHT: u32 = 0x0020_0043;
    /// Visible Light
    pub const VISIBLE_LIGHT: u32 = 0x0020_0044;
    /// Ultraviolet Light
    pub const ULTRAVIOLET_LIGHT: u32 = 0x0020_0045;
    /// Location
    pub const LOCATION: u32 = 0x0020_0050;
    /// Broadcast
    pub const BROADCAST: u32 = 0x0020_0051;
    /// Dead Reckoning
    pub const DEAD_RECKONING: u32 = 0x0020_0052;
    /// GPS
    pub const GPS: u32 = 0x0020_0053;
    /// Lookup
    pub const LOOKUP: u32 = 0x0020_0054;
    /// Other Location
    pub const OTHER_LOCATION: u32 = 0x0020_0055;
    /// Static
    pub const STATIC: u32 = 0x0020_0056;
    /// Triangulation
    pub const TRIANGULATION: u32 = 0x0020_0057;
    /// Mechanical
    pub const MECHANICAL: u32 = 0x0020_0060;
    /// Boolean Switch
    pub const BOOLEAN_SWITCH: u32 = 0x0020_0061;
    /// Boolean Switch Array
    pub const BOOLEAN_SWITCH_ARRAY: u32 = 0x0020_0062;
    /// Multivalue Switch
    pub const MULTIVALUE_SWITCH: u32 = 0x0020_0063;
    /// Force
    pub const FORCE: u32 = 0x0020_0064;
    /// Pressure
    pub const PRESSURE: u32 = 0x0020_0065;
    /// Strain
    pub const STRAIN: u32 = 0x0020_0066;
    /// Weight
    pub const WEIGHT: u32 = 0x0020_0067;
    /// Haptic Vibrator
    pub const HAPTIC_VIBRATOR: u32 = 0x0020_0068;
    /// Hall Effect Switch
    pub const HALL_EFFECT_SWITCH: u32 = 0x0020_0069;
    /// Motion
    pub const MOTION: u32 = 0x0020_0070;
    /// Accelerometer 1D
    pub const ACCELEROMETER_1D: u32 = 0x0020_0071;
    /// Accelerometer 2D
    pub const ACCELEROMETER_2D: u32 = 0x0020_0072;
    /// Accelerometer 3D
    pub const ACCELEROMETER_3D: u32 = 0x0020_0073;
    /// Gyrometer 1D
    pub const GYROMETER_1D: u32 = 0x0020_0074;
    /// Gyrometer 2D
    pub const GYROMETER_2D: u32 = 0x0020_0075;
    /// Gyrometer 3D
    pub const GYROMETER_3D: u32 = 0x0020_0076;
    /// Motion Detector
    pub const MOTION_DETECTOR: u32 = 0x0020_0077;
    /// Speedometer
    pub const SPEEDOMETER: u32 = 0x0020_0078;
    /// Accelerometer
    pub const ACCELEROMETER: u32 = 0x0020_0079;
    /// Gyrometer
    pub const GYROMETER: u32 = 0x0020_007a;
    /// Gravity Vector
    pub const GRAVITY_VECTOR: u32 = 0x0020_007b;
    /// Linear Accelerometer
    pub const LINEAR_ACCELEROMETER: u32 = 0x0020_007c;
    /// Orientation
    pub const ORIENTATION: u32 = 0x0020_0080;
    /// Compass 1D
    pub const COMPASS_1D: u32 = 0x0020_0081;
    /// Compass 2D
    pub const COMPASS_2D: u32 = 0x0020_0082;
    /// Compass 3D
    pub const COMPASS_3D: u32 = 0x0020_0083;
    /// Inclinometer 1D
    pub const INCLINOMETER_1D: u32 = 0x0020_0084;
    /// Inclinometer 2D
    pub const INCLINOMETER_2D: u32 = 0x0020_0085;
    /// Inclinometer 3D
    pub const INCLINOMETER_3D: u32 = 0x0020_0086;
    /// Distance 1D
    pub const DISTANCE_1D: u32 = 0x0020_0087;
    /// Distance 2D
    pub const DISTANCE_2D: u32 = 0x0020_0088;
    /// Distance 3D
    pub const DISTANCE_3D: u32 = 0x0020_0089;
    /// Device Orientation
    pub const DEVICE_ORIENTATION: u32 = 0x0020_008a;
    /// Compass
    pub const COMPASS: u32 = 0x0020_008b;
    /// Inclinometer
    pub const INCLINOMETER: u32 = 0x0020_008c;
    /// Distance
    pub const DISTANCE: u32 = 0x0020_008d;
    /// Relative Orientation
    pub const RELATIVE_ORIENTATION: u32 = 0x0020_008e;
    /// Simple Orientation
    pub const SIMPLE_ORIENTATION: u32 = 0x0020_008f;
    /// Scanner
    pub const SCANNER: u32 = 0x0020_0090;
    /// Barcode
    pub const BARCODE: u32 = 0x0020_0091;
    /// RFID
    pub const RFID: u32 = 0x0020_0092;
    /// NFC
    pub const NFC: u32 = 0x0020_0093;
    /// Time
    pub const TIME: u32 = 0x0020_00a0;
    /// Alarm Timer
    pub const ALARM_TIMER: u32 = 0x0020_00a1;
    /// Real Time Clock
    pub const REAL_TIME_CLOCK: u32 = 0x0020_00a2;
    /// Personal Activity
    pub const PERSONAL_ACTIVITY: u32 = 0x0020_00b0;
    /// Activity Detection
    pub const ACTIVITY_DETECTION: u32 = 0x0020_00b1;
    /// Device Position
    pub const DEVICE_POSITION: u32 = 0x0020_00b2;
    /// Floor Tracker
    pub const FLOOR_TRACKER: u32 = 0x0020_00b3;
    /// Pedometer
    pub const PEDOMETER: u32 = 0x0020_00b4;
    /// Step Detection
    pub const STEP_DETECTION: u32 = 0x0020_00b5;
    /// Orientation Extended
    pub const ORIENTATION_EXTENDED: u32 = 0x0020_00c0;
    /// Geomagnetic Orientation
    pub const GEOMAGNETIC_ORIENTATION: u32 = 0x0020_00c1;
    /// Magnetometer
    pub const MAGNETOMETER: u32 = 0x0020_00c2;
    /// Gesture
    pub const GESTURE: u32 = 0x0020_00d0;
    /// Chassis Flip Gesture
    pub const CHASSIS_FLIP_GESTURE: u32 = 0x0020_00d1;
    /// Hinge Fold Gesture
    pub const HINGE_FOLD_GESTURE: u32 = 0x0020_00d2;
    /// Other
    pub const OTHER: u32 = 0x0020_00e0;
    /// Custom
    pub const CUSTOM: u32 = 0x0020_00e1;
    /// Generic
    pub const GENERIC: u32 = 0x0020_00e2;
    /// Generic Enumerator
    pub const GENERIC_ENUMERATOR: u32 = 0x0020_00e3;
    /// Hinge Angle
    pub const HINGE_ANGLE: u32 = 0x0020_00e4;
    /// Event
    pub const EVENT: u32 = 0x0020_0200;
    /// Sensor State
    pub const SENSOR_STATE: u32 = 0x0020_0201;
    /// Sensor Event
    pub const SENSOR_EVENT: u32 = 0x0020_0202;
    /// Property
    pub const PROPERTY: u32 = 0x0020_0300;
    /// Friendly Name
    pub const FRIENDLY_NAME: u32 = 0x0020_0301;
    /// Persistent Unique ID
    pub const PERSISTENT_UNIQUE_ID: u32 = 0x0020_0302;
    /// Sensor Status
    pub const SENSOR_STATUS: u32 = 0x0020_0303;
    /// Minimum Report Interval
    pub const MINIMUM_REPORT_INTERVAL: u32 = 0x0020_0304;
    /// Sensor Manufacturer
    pub const SENSOR_MANUFACTURER: u32 = 0x0020_0305;
    /// Sensor Model
    pub const SENSOR_MODEL: u32 = 0x0020_0306;
    /// Sensor Serial Number
    pub const SENSOR_SERIAL_NUMBER: u32 = 0x0020_0307;
    /// Sensor Description
    pub const SENSOR_DESCRIPTION: u32 = 0x0020_0308;
    /// Sensor Connection Type
    pub const SENSOR_CONNECTION_TYPE: u32 = 0x0020_0309;
    /// Sensor Device Path
    pub const SENSOR_DEVICE_PATH: u32 = 0x0020_030a;
    /// Hardware Revision
    pub const HARDWARE_REVISION: u32 = 0x0020_030b;
    /// Firmware Version
    pub const FIRMWARE_VERSION: u32 = 0x0020_030c;
    /// Release Date
    pub const RELEASE_DATE: u32 = 0x0020_030d;
    /// Report Interval
    pub const REPORT_INTERVAL: u32 = 0x0020_030e;
    /// Change Sensitivity Absolute
    pub const CHANGE_SENSITIVITY_ABSOLUTE: u32 = 0x0020_030f;
    /// Change Sensitivity Percent of Range
    pub const CHANGE_SENSITIVITY_PERCENT_OF_RANGE: u32 = 0x0020_0310;
    /// Change Sensitivity Percent Relative
    pub const CHANGE_SENSITIVITY_PERCENT_RELATIVE: u32 = 0x0020_0311;
    /// Accuracy
    pub const ACCURACY: u32 = 0x0020_0312;
    /// Resolution
    pub const RESOLUTION: u32 = 0x0020_0313;
    /// Maximum
    pub const MAXIMUM: u32 = 0x0020_0314;
    /// Minimum
    pub const MINIMUM: u32 = 0x0020_0315;
    /// Reporting State
    pub const REPORTING_STATE: u32 = 0x0020_0316;
    /// Sampling Rate
    pub const SAMPLING_RATE: u32 = 0x0020_0317;
    /// Response Curve
    pub const RESPONSE_CURVE: u32 = 0x0020_0318;
    /// Power State
    pub const POWER_STATE: u32 = 0x0020_0319;
    /// Maximum FIFO Events
    pub const MAXIMUM_FIFO_EVENTS: u32 = 0x0020_031a;
    /// Report Latency
    pub const REPORT_LATENCY: u32 = 0x0020_031b;
    /// Flush FIFO Events
    pub const FLUSH_FIFO_EVENTS: u32 = 0x0020_031c;
    /// Maximum Power Consumption
    pub const MAXIMUM_POWER_CONSUMPTION: u32 = 0x0020_031d;
    /// Data Field: Location
    pub const DATA_FIELD_LOCATION: u32 = 0x0020_0400;
    /// Data Field: Altitude Antenna Sea Level
    pub const DATA_FIELD_ALTITUDE_ANTENNA_SEA_LEVEL: u32 = 0x0020_0402;
    /// Data Field: Differential Reference Station ID
    pub const DATA_FIELD_DIFFERENTIAL_REFERENCE_STATION_ID: u32 = 0x0020_0403;
    /// Data Field: Altitude Ellipsoid Error
    pub const DATA_FIELD_ALTITUDE_ELLIPSOID_ERROR: u32 = 0x0020_0404;
    /// Data Field: Altitude Ellipsoid
    pub const DATA_FIELD_ALTITUDE_ELLIPSOID: u32 = 0x0020_0405;
    /// Data Field: Altitude Sea Level Error
    pub const DATA_FIELD_ALTITUDE_SEA_LEVEL_ERROR: u32 = 0x0020_0406;
    /// Data Field: Altitude Sea Level
    pub const DATA_FIELD_ALTITUDE_SEA_LEVEL: u32 = 0x0020_0407;
    /// Data Field: Differential GPS Data Age
    pub const DATA_FIELD_DIFFERENTIAL_GPS_DATA_AGE: u32 = 0x0020_0408;
    /// Data Field: Error Radius
    pub const DATA_FIELD_ERROR_RADIUS: u32 = 0x0020_0409;
    /// Data Field: Fix Quality
    pub const DATA_FIELD_FIX_QUALITY: u32 = 0x0020_040a;
    /// Data Field: Fix Type
    pub const DATA_FIELD_FIX_TYPE: u32 = 0x0020_040b;
    /// Data Field: Geoidal Separation
    pub const DATA_FIELD_GEOIDAL_SEPARATION: u32 = 0x0020_040c;
    /// Data Field: GPS Operation Mode
    pub const DATA_FIELD_GPS_OPERATION_MODE: u32 = 0x0020_040d;
    /// Data Field: GPS Selection Mode
    pub const DATA_FIELD_GPS_SELECTION_MODE: u32 = 0x0020_040e;
    /// Data Field: GPS Status
    pub const DATA_FIELD_GPS_STATUS: u32 = 0x0020_040f;
    /// Data Field: Position Dilution of Precision
    pub const DATA_FIELD_POSITION_DILUTION_OF_PRECISION: u32 = 0x0020_0410;
    /// Data Field: Horizontal Dilution of Precision
    pub const DATA_FIELD_HORIZONTAL_DILUTION_OF_PRECISION: u32 = 0x0020_0411;
    /// Data Field: Vertical Dilution of Precision
    pub const DATA_FIELD_VERTICAL_DILUTION_OF_PRECISION: u32 = 0x0020_0412;
    /// Data Field: Latitude
    pub const DATA_FIELD_LATITUDE: u32 = 0x0020_0413;
    /// Data Field: Longitude
    pub const DATA_FIELD_LONGITUDE: u32 = 0x0020_0414;
    /// Data Field: True Heading
    pub const DATA_FIELD_TRUE_HEADING: u32 = 0x0020_0415;
    /// Data Field: Magnetic Heading
    pub const DATA_FIELD_MAGNETIC_HEADING: u32 = 0x0020_0416;
    /// Data Field: Magnetic Variation
    pub const DATA_FIELD_MAGNETIC_VARIATION: u32 = 0x0020_0417;
    /// Data Field: Speed
    pub const DATA_FIELD_SPEED: u32 = 0x0020_0418;
    /// Data Field: Satellites in View
    pub const DATA_FIELD_SATELLITES_IN_VIEW: u32 = 0x0020_0419;
    /// Data Field: Satellites in View Azimuth
    pub const DATA_FIELD_SATELLITES_IN_VIEW_AZIMUTH: u32 = 0x0020_041a;
    /// Data Field: Satellites in View Elevation
    pub const DATA_FIELD_SATELLITES_IN_VIEW_ELEVATION: u32 = 0x0020_041b;
    /// Data Field: Satellites in View IDs
    pub const DATA_FIELD_SATELLITES_IN_VIEW_IDS: u32 = 0x0020_041c;
    /// Data Field: Satellites in View PRNs
    pub const DATA_FIELD_SATELLITES_IN_VIEW_PRNS: u32 = 0x0020_041d;
    /// Data Field: Satellites in View S/N Ratios
    pub const DATA_FIELD_SATELLITES_IN_VIEW_S_N_RATIOS: u32 = 0x0020_041e;
    /// Data Field: Satellites Used Count
    pub const DATA_FIELD_SATELLITES_USED_COUNT: u32 = 0x0020_041f;
    /// Data Field: Satellites Used PRNs
    pub const DATA_FIELD_SATELLITES_USED_PRNS: u32 = 0x0020_0420;
    /// Data Field: NMEA Sentence
    pub const DATA_FIELD_NMEA_SENTENCE: u32 = 0x0020_0421;
    /// Data Field: Address Line 1
    pub const DATA_FIELD_ADDRESS_LINE_1: u32 = 0x0020_0422;
    /// Data Field: Address Line 2
    pub const DATA_FIELD_ADDRESS_LINE_2: u32 = 0x0020_0423;
    /// Data Field: City
    pub const DATA_FIELD_CITY: u32 = 0x0020_0424;
    /// Data Field: State or Province
    pub const DATA_FIELD_STATE_OR_PROVINCE: u32 = 0x0020_0425;
    /// Data Field: Country or Region
    pub const DATA_FIELD_COUNTRY_OR_REGION: u32 = 0x0020_0426;
    /// Data Field: Postal Code
    pub const DATA_FIELD_POSTAL_CODE: u32 = 0x0020_0427;
    /// Data Field: Environmental
    pub const DATA_FIELD_ENVIRONMENTAL: u32 = 0x0020_0430;
    /// Data Field: Atmospheric Pressure
    pub const DATA_FIELD_ATMOSPHERIC_PRESSURE: u32 = 0x0020_0431;
    /// Data Field: Relative Humidity
    pub const DATA_FIELD_RELATIVE_HUMIDITY: u32 = 0x0020_0433;
    /// Data Field: Temperature
    pub const DATA_FIELD_TEMPERATURE: u32 = 0x0020_0434;
    /// Data Field: Wind Direction
    pub const DATA_FIELD_WIND_DIRECTION: u32 = 0x0020_0435;
    /// Data Field: Wind Speed
    pub const DATA_FIELD_WIND_SPEED: u32 = 0x0020_0436;
    /// Data Field: Air Quality Index
    pub const DATA_FIELD_AIR_QUALITY_INDEX: u32 = 0x0020_0437;
    /// Data Field: Equivalent CO2
    pub const DATA_FIELD_EQUIVALENT_CO2: u32 = 0x0020_0438;
    /// Data Field: Volatile Organic Compound Concentration
    pub const DATA_FIELD_VOLATILE_ORGANIC_COMPOUND_CONCENTRATION: u32 = 0x0020_0439;
    /// Data Field: Object Presence
    pub const DATA_FIELD_OBJECT_PRESENCE: u32 = 0x0020_043a;
    /// Data Field: Object Proximity Range
    pub const DATA_FIELD_OBJECT_PROXIMITY_RANGE: u32 = 0x0020_043b;
    /// Data Field: Object Proximity Out of Range
    pub const DATA_FIELD_OBJECT_PROXIMITY_OUT_OF_RANGE: u32 = 0x0020_043c;
    /// Data Field: Motion
    pub const DATA_FIELD_MOTION: u32 = 0x0020_0450;
    /// Data Field: Motion State
    pub const DATA_FIELD_MOTION_STATE: u32 = 0x0020_0451;
    /// Data Field: Acceleration
    pub const DATA_FIELD_ACCELERATION: u32 = 0x0020_0452;
    /// Data Field: Acceleration Axis X
    pub const DATA_FIELD_ACCELERATION_AXIS_X: u32 = 0x0020_0453;
    /// Data Field: Acceleration Axis Y
    pub const DATA_FIELD_ACCELERATION_AXIS_Y: u32 = 0x0020_0454;
    /// Data Field: Acceleration Axis Z
    pub const DATA_FIELD_ACCELERATION_AXIS_Z: u32 = 0x0020_0455;
    /// Data Field: Angular Velocity
    pub const DATA_FIELD_ANGULAR_VELOCITY: u32 = 0x0020_0456;
    /// Data Field: Angular Velocity about X Axis
    pub const DATA_FIELD_ANGULAR_VELOCITY_ABOUT_X_AXIS: u32 = 0x0020_0457;
    /// Data Field: Angular Velocity about Y Axis
    pub const DATA_FIELD_ANGULAR_VELOCITY_ABOUT_Y_AXIS: u32 = 0x0020_0458;
    /// Data Field: Angular Velocity about Z Axis
    pub const DATA_FIELD_ANGULAR_VELOCITY_ABOUT_Z_AXIS: u32 = 0x0020_0459;
    /// Data Field: Angular Position
    pub const DATA_FIELD_ANGULAR_POSITION: u32 = 0x0020_045a;
    /// Data Field: Angular Position about X Axis
    pub const DATA_FIELD_ANGULAR_POSITION_ABOUT_X_AXIS: u32 = 0x0020_045b;
    /// Data Field: Angular Position about Y Axis
    pub const DATA_FIELD_ANGULAR_POSITION_ABOUT_Y_AXIS: u32 = 0x0020_045c;
    /// Data Field: Angular Position about Z Axis
    pub const DATA_FIELD_ANGULAR_POSITION_ABOUT_Z_AXIS: u32 = 0x0020_045d;
    /// Data Field: Motion Speed
    pub const DATA_FIELD_MOTION_SPEED: u32 = 0x0020_045e;
    /// Data Field: Motion Intensity
    pub const DATA_FIELD_MOTION_INTENSITY: u32 = 0x0020_045f;
    /// Data Field: Orientation
    pub const DATA_FIELD_ORIENTATION: u32 = 0x0020_0470;
    /// Data Field: Heading
    pub const DATA_FIELD_HEADING: u32 = 0x0020_0471;
    /// Data Field: Heading X Axis
    pub const DATA_FIELD_HEADING_X_AXIS: u32 = 0x0020_0472;
    /// Data Field: Heading Y Axis
    pub const DATA_FIELD_HEADING_Y_AXIS: u32 = 0x0020_0473;
    /// Data Field: Heading Z Axis
    pub const DATA_FIELD_HEADING_Z_AXIS: u32 = 0x0020_0474;
    /// Data Field: Heading Compensated Magnetic North
    pub const DATA_FIELD_HEADING_COMPENSATED_MAGNETIC_NORTH: u32 = 0x0020_0475;
    /// Data Field: Heading Compensated True North
    pub const DATA_FIELD_HEADING_COMPENSATED_TRUE_NORTH: u32 = 0x0020_0476;
    /// Data Field: Heading Magnetic North
    pub const DATA_FIELD_HEADING_MAGNETIC_NORTH: u32 = 0x0020_0477;
    /// Data Field: Heading True North
    pub const DATA_FIELD_HEADING_TRUE_NORTH: u32 = 0x0020_0478;
    /// Data Field: Distance
    pub const DATA_FIELD_DISTANCE: u32 = 0x0020_0479;
    /// Data Field: Distance X Axis
    pub const DATA_FIELD_DISTANCE_X_AXIS: u32 = 0x0020_047a;
    /// Data Field: Distance Y Axis
    pub const DATA_FIELD_DISTANCE_Y_AXIS: u32 = 0x0020_047b;
    /// Data Field: Distance Z Axis
    pub const DATA_FIELD_DISTANCE_Z_AXIS: u32 = 0x0020_047c;
    /// Data Field: Distance Out-of-Range
    pub const DATA_FIELD_DISTANCE_OUT_OF_RANGE: u32 = 0x0020_047d;
    /// Data Field: Tilt
    pub const DATA_FIELD_TILT: u32 = 0x0020_047e;
    /// Data Field: Tilt X Axis
    pub const DATA_FIELD_TILT_X_AXIS: u32 = 0x0020_047f;
    /// Data Field: Tilt Y Axis
    pub const DATA_FIELD_TILT_Y_AXIS: u32 = 0x0020_0480;
    /// Data Field: Tilt Z Axis
    pub const DATA_FIELD_TILT_Z_AXIS: u32 = 0x0020_0481;
    /// Data Field: Rotation Matrix
    pub const DATA_FIELD_ROTATION_MATRIX: u32 = 0x0020_0482;
    /// Data Field: Quaternion
    pub const DATA_FIELD_QUATERNION: u32 = 0x0020_0483;
    /// Data Field: Magnetic Flux
    pub const DATA_FIELD_MAGNETIC_FLUX: u32 = 0x0020_0484;
    /// Data Field: Magnetic Flux X Axis
    pub const DATA_FIELD_MAGNETIC_FLUX_X_AXIS: u32 = 0x0020_0485;
    /// Data Field: Magnetic Flux Y Axis
    pub const DATA_FIELD_MAGNETIC_FLUX_Y_AXIS: u32 = 0x0020_0486;
    /// Data Field: Magnetic Flux Z Axis
    pub const DATA_FIELD_MAGNETIC_FLUX_Z_AXIS: u32 = 0x0020_0487;
    /// Data Field: Magnetometer Accuracy
    pub const DATA_FIELD_MAGNETOMETER_ACCURACY: u32 = 0x0020_0488;
    /// Data Field: Simple Orientation Direction
    pub const DATA_FIELD_SIMPLE_ORIENTATION_DIRECTION: u32 = 0x0020_0489;
    /// Data Field: Mechanical
    pub const DATA_FIELD_MECHANICAL: u32 = 0x0020_0490;
    /// Data Field: Boolean Switch State
    pub const DATA_FIELD_BOOLEAN_SWITCH_STATE: u32 = 0x0020_0491;
    /// Data Field: Boolean Switch Array States
    pub const DATA_FIELD_BOOLEAN_SWITCH_ARRAY_STATES: u32 = 0x0020_0492;
    /// Data Field: Multivalue Switch Value
    pub const DATA_FIELD_MULTIVALUE_SWITCH_VALUE: u32 = 0x0020_0493;
    /// Data Field: Force
    pub const DATA_FIELD_FORCE: u32 = 0x0020_0494;
    /// Data Field: Absolute Pressure
    pub const DATA_FIELD_ABSOLUTE_PRESSURE: u32 = 0x0020_0495;
    /// Data Field: Gauge Pressure
    pub const DATA_FIELD_GAUGE_PRESSURE: u32 = 0x0020_0496;
    /// Data Field: Strain
    pub const DATA_FIELD_STRAIN: u32 = 0x0020_0497;
    /// Data Field: Weight
    pub const DATA_FIELD_WEIGHT: u32 = 0x0020_0498;
    /// Data Field: Biometric
    pub const DATA_FIELD_BIOMETRIC: u32 = 0x0020_04b0;
    /// Data Field: Human Presence
    pub const DATA_FIELD_HUMAN_PRESENCE: u32 = 0x0020_04b1;
    /// Data Field: Human Proximity Range
    pub const DATA_FIELD_HUMAN_PROXIMITY_RANGE: u32 = 0x0020_04b2;
    /// Data Field: Human Proximity Out of Range
    pub const DATA_FIELD_HUMAN_PROXIMITY_OUT_OF_RANGE: u32 = 0x0020_04b3;
    /// Data Field: Human Touch State
    pub const DATA_FIELD_HUMAN_TOUCH_STATE: u32 = 0x0020_04b4;
    /// Data Field: Blood Pressure
    pub const DATA_FIELD_BLOOD_PRESSURE: u32 = 0x0020_04b5;
    /// Data Field: Blood Pressure Diastolic
    pub const DATA_FIELD_BLOOD_PRESSURE_DIASTOLIC: u32 = 0x0020_04b6;
    /// Data Field: Blood Pressure Systolic
    pub const DATA_FIELD_BLOOD_PRESSURE_SYSTOLIC: u32 = 0x0020_04b7;
    /// Data Field: Heart Rate
    pub const DATA_FIELD_HEART_RATE: u32 = 0x0020_04b8;
    /// Data Field: Resting Heart Rate
    pub const DATA_FIELD_RESTING_HEART_RATE: u32 = 0x0020_04b9;
    /// Data Field: Heartbeat Interval
    pub const DATA_FIELD_HEARTBEAT_INTERVAL: u32 = 0x0020_04ba;
    /// Data Field: Respiratory Rate
    pub const DATA_FIELD_RESPIRATORY_RATE: u32 = 0x0020_04bb;
    /// Data Field: SpO2
    pub const DATA_FIELD_SP_O2: u32 = 0x0020_04bc;
    /// Data Field: Light
    pub const DATA_FIELD_LIGHT: u32 = 0x0020_04d0;
    /// Data Field: Illuminance
    pub const DATA_FIELD_ILLUMINANCE: u32 = 0x0020_04d1;
    /// Data Field: Color Temperature
    pub const DATA_FIELD_COLOR_TEMPERATURE: u32 = 0x0020_04d2;
    /// Data Field: Chromaticity
    pub const DATA_FIELD_CHROMATICITY: u32 = 0x0020_04d3;
    /// Data Field: Chromaticity X
    pub const DATA_FIELD_CHROMATICITY_X: u32 = 0x0020_04d4;
    /// Data Field: Chromaticity Y
    pub const DATA_FIELD_CHROMATICITY_Y: u32 = 0x0020_04d5;
    /// Data Field: Consumer IR Sentence Receive
    pub const DATA_FIELD_CONSUMER_IR_SENTENCE_RECEIVE: u32 = 0x0020_04d6;
    /// Data Field: Infrared Light
    pub const DATA_FIELD_INFRARED_LIGHT: u32 = 0x0020_04d7;
    /// Data Field: Red Light
    pub const DATA_FIELD_RED_LIGHT: u32 = 0x0020_04d8;
    /// Data Field: Green Light
    pub const DATA_FIELD_GREEN_LIGHT: u32 = 0x0020_04d9;
    /// Data Field: Blue Light
    pub const DATA_FIELD_BLUE_LIGHT: u32 = 0x0020_04da;
    /// Data Field: Ultraviolet A Light
    pub const DATA_FIELD_ULTRAVIOLET_A_LIGHT: u32 = 0x0020_04db;
    /// Data Field: Ultraviolet B Light
    pub const DATA_FIELD_ULTRAVIOLET_B_LIGHT: u32 = 0x0020_04dc;
    /// Data Field: Ultraviolet Index
    pub const DATA_FIELD_ULTRAVIOLET_INDEX: u32 = 0x0020_04dd;
    /// Data Field: Near Infrared Light
    pub const DATA_FIELD_NEAR_INFRARED_LIGHT: u32 = 0x0020_04de;
    /// Data Field: Scanner
    pub const DATA_FIELD_SCANNER: u32 = 0x0020_04f0;
    /// Data Field: RFID Tag 40 Bit
    pub const DATA_FIELD_RFID_TAG_40_BIT: u32 = 0x0020_04f1;
    /// Data Field: NFC Sentence Receive
    pub const DATA_FIELD_NFC_SENTENCE_RECEIVE: u32 = 0x0020_04f2;
    /// Data Field: Electrical
    pub const DATA_FIELD_ELECTRICAL: u32 = 0x0020_0500;
    /// Data Field: Capacitance
    pub const DATA_FIELD_CAPACITANCE: u32 = 0x0020_0501;
    /// Data Field: Current
    pub const DATA_FIELD_CURRENT: u32 = 0x0020_0502;
    /// Data Field: Electrical Power
    pub const DATA_FIELD_ELECTRICAL_POWER: u32 = 0x0020_0503;
    /// Data Field: Inductance
    pub const DATA_FIELD_INDUCTANCE: u32 = 0x0020_0504;
    /// Data Field: Resistance
    pub const DATA_FIELD_RESISTANCE: u32 = 0x0020_0505;
    /// Data Field: Voltage
    pub const DATA_FIELD_VOLTAGE: u32 = 0x0020_0506;
    /// Data Field: Frequency
    pub const DATA_FIELD_FREQUENCY: u32 = 0x0020_0507;
    /// Data Field: Period
    pub const DATA_FIELD_PERIOD: u32 = 0x0020_0508;
    /// Data Field: Percent of Range
    pub const DATA_FIELD_PERCENT_OF_RANGE: u32 = 0x0020_0509;
    /// Data Field: Time
    pub const DATA_FIELD_TIME: u32 = 0x0020_0520;
    /// Data Field: Year
    pub const DATA_FIELD_YEAR: u32 = 0x0020_0521;
    /// Data Field: Month
    pub const DATA_FIELD_MONTH: u32 = 0x0020_0522;
    /// Data Field: Day
    pub const DATA_FIELD_DAY: u32 = 0x0020_0523;
    /// Data Field: Day of Week
    pub const DATA_FIELD_DAY_OF_WEEK: u32 = 0x0020_0524;
    /// Data Field: Hour
    pub const DATA_FIELD_HOUR: u32 = 0x0020_0525;
    /// Data Field: Minute
    pub const DATA_FIELD_MINUTE: u32 = 0x0020_0526;
    /// Data Field: Second
    pub const DATA_FIELD_SECOND: u32 = 0x0020_0527;
    /// Data Field: Millisecond
    pub const DATA_FIELD_MILLISECOND: u32 = 0x0020_0528;
    /// Data Field: Timestamp
    pub const DATA_FIELD_TIMESTAMP: u32 = 0x0020_0529;
    /// Data Field: Julian Day of Year
    pub const DATA_FIELD_JULIAN_DAY_OF_YEAR: u32 = 0x0020_052a;
    /// Data Field: Time Since System Boot
    pub const DATA_FIELD_TIME_SINCE_SYSTEM_BOOT: u32 = 0x0020_052b;
    /// Data Field: Custom
    pub const DATA_FIELD_CUSTOM: u32 = 0x0020_0540;
    /// Data Field: Custom Usage
    pub const DATA_FIELD_CUSTOM_USAGE: u32 = 0x0020_0541;
    /// Data Field: Custom Boolean Array
    pub const DATA_FIELD_CUSTOM_BOOLEAN_ARRAY: u32 = 0x0020_0542;
    /// Data Field: Custom Value
    pub const DATA_FIELD_CUSTOM_VALUE: u32 = 0x0020_0543;
    /// Data Field: Custom Value 1
    pub const DATA_FIELD_CUSTOM_VALUE_1: u32 = 0x0020_0544;
    /// Data Field: Custom Value 2
    pub const DATA_FIELD_CUSTOM_VALUE_2: u32 = 0x0020_0545;
    /// Data Field: Custom Value 3
    pub const DATA_FIELD_CUSTOM_VALUE_3: u32 = 0x0020_0546;
    /// Data Field: Custom Value 4
    pub const DATA_FIELD_CUSTOM_VALUE_4: u32 = 0x0020_0547;
    /// Data Field: Custom Value 5
    pub const DATA_FIELD_CUSTOM_VALUE_5: u32 = 0x0020_0548;
    /// Data Field: Custom Value 6
    pub const DATA_FIELD_CUSTOM_VALUE_6: u32 = 0x0020_0549;
    /// Data Field: Personal Activity
    pub const DATA_FIELD_PERSONAL_ACTIVITY: u32 = 0x0020_0590;
    /// Data Field: Activity Type
    pub const DATA_FIELD_ACTIVITY_TYPE: u32 = 0x0020_0591;
    /// Data Field: Activity State
    pub const DATA_FIELD_ACTIVITY_STATE: u32 = 0x0020_0592;
    /// Data Field: Device Position
    pub const DATA_FIELD_DEVICE_POSITION: u32 = 0x0020_0593;
    /// Data Field: Step Count
    pub const DATA_FIELD_STEP_COUNT: u32 = 0x0020_0594;
    /// Data Field: Step Count Reset
    pub const DATA_FIELD_STEP_COUNT_RESET: u32 = 0x0020_0595;
    /// Data Field: Step Duration
    pub const DATA_FIELD_STEP_DURATION: u32 = 0x0020_0596;
    /// Data Field: Step Type
    pub const DATA_FIELD_STEP_TYPE: u32 = 0x0020_0597;
    /// Sensor State: Undefined
    pub const SENSOR_STATE_UNDEFINED: u32 = 0x0020_0800;
    /// Sensor State: Ready
    pub const SENSOR_STATE_READY: u32 = 0x0020_0801;
    /// Sensor State: Not Available
    pub const SENSOR_STATE_NOT_AVAILABLE: u32 = 0x0020_0802;
    /// Sensor State: No Data
    pub const SENSOR_STATE_NO_DATA: u32 = 0x0020_0803;
    /// Sensor State: Initializing
    pub const SENSOR_STATE_INITIALIZING: u32 = 0x0020_0804;
    /// Sensor State: Access Denied
    pub const SENSOR_STATE_ACCESS_DENIED: u32 = 0x0020_0805;
    /// Sensor State: Error
    pub const SENSOR_STATE_ERROR: u32 = 0x0020_0806;
    /// Sensor Event: Unknown
    pub const SENSOR_EVENT_UNKNOWN: u32 = 0x0020_0810;
    /// Sensor Event: State Changed
    pub const SENSOR_EVENT_STATE_CHANGED: u32 = 0x0020_0811;
    /// Sensor Event: Property Changed
    pub const SENSOR_EVENT_PROPERTY_CHANGED: u32 = 0x0020_0812;
    /// Sensor Event: Data Updated
    pub const SENSOR_EVENT_DATA_UPDATED: u32 = 0x0020_0813;
    /// Sensor Event: Poll Response
    pub const SENSOR_EVENT_POLL_RESPONSE: u32 = 0x0020_0814;
    /// Sensor Event: Change Sensitivity
    pub const SENSOR_EVENT_CHANGE_SENSITIVITY: u32 = 0x0020_0815;
    /// Sensor Event: Range Maximum Reached
    pub const SENSOR_EVENT_RANGE_MAXIMUM_REACHED: u32 = 0x0020_0816;
    /// Sensor Event: Range Minimum Reached
    pub const SENSOR_EVENT_RANGE_MINIMUM_REACHED: u32 = 0x0020_0817;
    /// Sensor Event: High Threshold Cross Upward
    pub const SENSOR_EVENT_HIGH_THRESHOLD_CROSS_UPWARD: u32 = 0x0020_0818;
    /// Sensor Event: High Threshold Cross Downward
    pub const SENSOR_EVENT_HIGH_THRESHOLD_CROSS_DOWNWARD: u32 = 0x0020_0819;
    /// Sensor Event: Low Threshold Cross Upward
    pub const SENSOR_EVENT_LOW_THRESHOLD_CROSS_UPWARD: u32 = 0x0020_081a;
    /// Sensor Event: Low Threshold Cross Downward
    pub const SENSOR_EVENT_LOW_THRESHOLD_CROSS_DOWNWARD: u32 = 0x0020_081b;
    /// Sensor Event: Zero Threshold Cross Upward
    pub const SENSOR_EVENT_ZERO_THRESHOLD_CROSS_UPWARD: u32 = 0x0020_081c;
    /// Sensor Event: Zero Threshold Cross Downward
    pub const SENSOR_EVENT_ZERO_THRESHOLD_CROSS_DOWNWARD: u32 = 0x0020_081d;
    /// Sensor Event: Period Exceeded
    pub const SENSOR_EVENT_PERIOD_EXCEEDED: u32 = 0x0020_081e;
    /// Sensor Event: Frequency Exceeded
    pub const SENSOR_EVENT_FREQUENCY_EXCEEDED: u32 = 0x0020_081f;
    /// Sensor Event: Complex Trigger
    pub const SENSOR_EVENT_COMPLEX_TRIGGER: u32 = 0x0020_0820;
    /// Connection Type: PC Integrated
    pub const CONNECTION_TYPE_PC_INTEGRATED: u32 = 0x0020_0830;
    /// Connection Type: PC Attached
    pub const CONNECTION_TYPE_PC_ATTACHED: u32 = 0x0020_0831;
    /// Connection Type: PC External
    pub const CONNECTION_TYPE_PC_EXTERNAL: u32 = 0x0020_0832;
    /// Reporting State: Report No Events
    pub const REPORTING_STATE_REPORT_NO_EVENTS: u32 = 0x0020_0840;
    /// Reporting State: Report All Events
    pub const REPORTING_STATE_REPORT_ALL_EVENTS: u32 = 0x0020_0841;
    /// Reporting State: Report Threshold Events
    pub const REPORTING_STATE_REPORT_THRESHOLD_EVENTS: u32 = 0x0020_0842;
    /// Reporting State: Wake On No Events
    pub const REPORTING_STATE_WAKE_ON_NO_EVENTS: u32 = 0x0020_0843;
    /// Reporting State: Wake On All Events
    pub const REPORTING_STATE_WAKE_ON_ALL_EVENTS: u32 = 0x0020_0844;
    /// Reporting State: Wake On Threshold Events
    pub const REPORTING_STATE_WAKE_ON_THRESHOLD_EVENTS: u32 = 0x0020_0845;
    /// Power State: Undefined
    pub const POWER_STATE_UNDEFINED: u32 = 0x0020_0850;
    /// Power State: D0 Full Power
    pub const POWER_STATE_D0_FULL_POWER: u32 = 0x0020_0851;
    /// Power State: D1 Low Power
    pub const POWER_STATE_D1_LOW_POWER: u32 = 0x0020_0852;
    /// Power State: D2 Standby Power with Wakeup
    pub const POWER_STATE_D2_STANDBY_POWER_WITH_WAKEUP: u32 = 0x0020_0853;
    /// Power State: D3 Sleep with Wakeup
    pub const POWER_STATE_D3_SLEEP_WITH_WAKEUP: u32 = 0x0020_0854;
    /// Power State: D4 Power Off
    pub const POWER_STATE_D4_POWER_OFF: u32 = 0x0020_0855;
}

/// The page Lighting And Illumination.
pub mod lighting_and_illumination {
    /// The number of the page: the high half of each usage.
    pub const PAGE: u32 = 0x0059;
    /// LampArray
    pub const LAMP_ARRAY: u32 = 0x0059_0001;
    /// LampArrayAttributesReport
    pub const LAMP_ARRAY_ATTRIBUTES_REPORT: u32 = 0x0059_0002;
    /// LampCount
    pub const LAMP_COUNT: u32 = 0x0059_0003;
    /// BoundingBoxWidthInMicrometers
    pub const BOUNDING_BOX_WIDTH_IN_MICROMETERS: u32 = 0x0059_0004;
    /// BoundingBoxHeightInMicrometers
    pub const BOUNDING_BOX_HEIGHT_IN_MICROMETERS: u32 = 0x0059_0005;
    /// BoundingBoxDepthInMicrometers
    pub const BOUNDING_BOX_DEPTH_IN_MICROMETERS: u32 = 0x0059_0006;
    /// LampArrayKind
    pub const LAMP_ARRAY_KIND: u32 = 0x0059_0007;
    /// MinUpdateIntervalInMicroseconds
    pub const MIN_UPDATE_INTERVAL_IN_MICROSECONDS: u32 = 0x0059_0008;
    /// LampAttributesRequestReport
    pub const LAMP_ATTRIBUTES_REQUEST_REPORT: u32 = 0x0059_0020;
    /// LampId
    pub const LAMP_ID: u32 = 0x0059_0021;
    /// LampAttributesResponseReport
    pub const LAMP_ATTRIBUTES_RESPONSE_REPORT: u32 = 0x0059_0022;
    /// PositionXInMicrometers
    pub const POSITION_X_IN_MICROMETERS: u32 = 0x0059_0023;
    /// PositionYInMicrometers
    pub const POSITION_Y_IN_MICROMETERS: u32 = 0x0059_0024;
    /// PositionZInMicrometers
    pub const POSITION_Z_IN_MICROMETERS: u32 = 0x0059_0025;
    /// LampPurposes
    pub const LAMP_PURPOSES: u32 = 0x0059_0026;
    /// UpdateLatencyInMicroseconds
    pub const UPDATE_LATENCY_IN_MICROSECONDS: u32 = 0x0059_0027;
    /// RedLevelCount
    pub const RED_LEVEL_COUNT: u32 = 0x0059_0028;
    /// GreenLevelCount
    pub const GREEN_LEVEL_COUNT: u32 = 0x0059_0029;
    /// BlueLevelCount
    pub const BLUE_LEVEL_COUNT: u32 = 0x0059_002a;
    /// IntensityLevelCount
    pub const INTENSITY_LEVEL_COUNT: u32 = 0x0059_002b;
    /// IsProgrammable
    pub const IS_PROGRAMMABLE: u32 = 0x0059_002c;
    /// InputBinding
    pub const INPUT_BINDING: u32 = 0x0059_002d;
    /// LampMultiUpdateReport
    pub const LAMP_MULTI_UPDATE_REPORT: u32 = 0x0059_0050;
    /// RedUpdateChannel
    pub const RED_UPDATE_CHANNEL: u32 = 0x0059_0051;
    /// GreenUpdateChannel
    pub const GREEN_UPDATE_CHANNEL: u32 = 0x0059_0052;
    /// BlueUpdateChannel
    pub const BLUE_UPDATE_CHANNEL: u32 = 0x0059_0053;
    /// IntensityUpdateChannel
    pub const INTENSITY_UPDATE_CHANNEL: u32 = 0x0059_0054;
    /// LampUpdateFlags
    pub const LAMP_UPDATE_FLAGS: u32 = 0x0059_0055;
    /// LampRangeUpdateReport
    pub const LAMP_RANGE_UPDATE_REPORT: u32 = 0x0059_0060;
    /// LampIdStart
    pub const LAMP_ID_START: u32 = 0x0059_0061;
    /// LampIdEnd
    pub const LAMP_ID_END: u32 = 0x0059_0062;
    /// LampArrayControlReport
    pub const LAMP_ARRAY_CONTROL_REPORT: u32 = 0x0059_0070;
    /// AutonomousMode
    pub const AUTONOMOUS_MODE: u32 = 0x0059_0071;
}

/// The page Power.
pub mod power {
    /// The number of the page: the high half of each usage.
    pub const PAGE: u32 = 0x0084;
    /// iName
    pub const I_NAME: u32 = 0x0084_0001;
    /// Present Status
    pub const PRESENT_STATUS: u32 = 0x0084_0002;
    /// Changed Status
    pub const CHANGED_STATUS: u32 = 0x0084_0003;
    /// UPS
    pub const UPS: u32 = 0x0084_0004;
    /// Power Supply
    pub const POWER_SUPPLY: u32 = 0x0084_0005;
    /// Battery System
    pub const BATTERY_SYSTEM: u32 = 0x0084_0010;
    /// Battery System ID
    pub const BATTERY_SYSTEM_ID: u32 = 0x0084_0011;
    /// Battery
    pub const BATTERY: u32 = 0x0084_0012;
    /// Battery ID
    pub const BATTERY_ID: u32 = 0x0084_0013;
    /// Charger
    pub const CHARGER: u32 = 0x0084_0014;
    /// Charger ID
    pub const CHARGER_ID: u32 = 0x0084_0015;
    /// Power Converter
    pub const POWER_CONVERTER: u32 = 0x0084_0016;
    /// Power Converter ID
    pub const POWER_CONVERTER_ID: u32 = 0x0084_0017;
    /// Outlet System
    pub const OUTLET_SYSTEM: u32 = 0x0084_0018;
    /// Outlet System ID
    pub const OUTLET_SYSTEM_ID: u32 = 0x0084_0019;
    /// Input
    pub const INPUT: u32 = 0x0084_001a;
    /// Input ID
    pub const INPUT_ID: u32 = 0x0084_001b;
    /// Output
    pub const OUTPUT: u32 = 0x0084_001c;
    /// Output ID
    pub const OUTPUT_ID: u32 = 0x0084_001d;
    /// Flow
    pub const FLOW: u32 = 0x0084_001e;
    /// Flow ID
    pub const FLOW_ID: u32 = 0x0084_001f;
    /// Outlet
    pub const OUTLET: u32 = 0x0084_0020;
    /// Outlet ID
    pub const OUTLET_ID: u32 = 0x0084_0021;
    /// Gang
    pub const GANG: u32 = 0x0084_0022;
    /// Gang ID
    pub const GANG_ID: u32 = 0x0084_0023;
    /// Power Summary
    pub const POWER_SUMMARY: u32 = 0x0084_0024;
    /// Power Summary ID
    pub const POWER_SUMMARY_ID: u32 = 0x0084_0025;
    /// Voltage
    pub const VOLTAGE: u32 = 0x0084_0030;
    /// Current
    pub const CURRENT: u32 = 0x0084_0031;
    /// Frequency
    pub const FREQUENCY: u32 = 0x0084_0032;
    /// Apparent Power
    pub const APPARENT_POWER: u32 = 0x0084_0033;
    /// Active Power
    pub const ACTIVE_POWER: u32 = 0x0084_0034;
    /// Percent Load
    pub const PERCENT_LOAD: u32 = 0x0084_0035;
    /// Temperature
    pub const TEMPERATURE: u32 = 0x0084_0036;
    /// Humidity
    pub const HUMIDITY: u32 = 0x0084_0037;
    /// Bad Count
    pub const BAD_COUNT: u32 = 0x0084_0038;
    /// Config Voltage
    pub const CONFIG_VOLTAGE: u32 = 0x0084_0040;
    /// Config Current
    pub const CONFIG_CURRENT: u32 = 0x0084_0041;
    /// Config Frequency
    pub const CONFIG_FREQUENCY: u32 = 0x0084_0042;
    /// Config Apparent Power
    pub const CONFIG_APPARENT_POWER: u32 = 0x0084_0043;
    /// Config Active Power
    pub const CONFIG_ACTIVE_POWER: u32 = 0x0084_0044;
    /// Config Percent Load
    pub const CONFIG_PERCENT_LOAD: u32 = 0x0084_0045;
    /// Config Temperature
    pub const CONFIG_TEMPERATURE: u32 = 0x0084_0046;
    /// Config Humidity
    pub const CONFIG_HUMIDITY: u32 = 0x0084_0047;
    /// Switch On Control
    pub const SWITCH_ON_CONTROL: u32 = 0x0084_0050;
    /// Switch Off Control
    pub const SWITCH_OFF_CONTROL: u32 = 0x0084_0051;
    /// Toggle Control
    pub const TOGGLE_CONTROL: u32 = 0x0084_0052;
    /// Low Voltage Transfer
    pub const LOW_VOLTAGE_TRANSFER: u32 = 0x0084_0053;
    /// High Voltage Transfer
    pub const HIGH_VOLTAGE_TRANSFER: u32 = 0x0084_0054;
    /// Delay Before Reboot
    pub const DELAY_BEFORE_REBOOT: u32 = 0x0084_0055;
    /// Delay Before Startup
    pub const DELAY_BEFORE_STARTUP: u32 = 0x0084_0056;
    /// Delay Before Shutdown
    pub const DELAY_BEFORE_SHUTDOWN: u32 = 0x0084_0057;
    /// Test
    pub const TEST: u32 = 0x0084_0058;
    /// Module Reset
    pub const MODULE_RESET: u32 = 0x0084_0059;
    /// Audible Alarm Control
    pub const AUDIBLE_ALARM_CONTROL: u32 = 0x0084_005a;
    /// Present
    pub const PRESENT: u32 = 0x0084_0060;
    /// Good
    pub const GOOD: u32 = 0x0084_0061;
    /// Internal Failure
    pub const INTERNAL_FAILURE: u32 = 0x0084_0062;
    /// Voltage Out Of Range
    pub const VOLTAGE_OUT_OF_RANGE: u32 = 0x0084_0063;
    /// Frequency Out Of Range
    pub const FREQUENCY_OUT_OF_RANGE: u32 = 0x0084_0064;
    /// Overload
    pub const OVERLOAD: u32 = 0x0084_0065;
    /// Over Charged
    pub const OVER_CHARGED: u32 = 0x0084_0066;
    /// Over Temperature
    pub const OVER_TEMPERATURE: u32 = 0x0084_0067;
    /// Shutdown Requested
    pub const SHUTDOWN_REQUESTED: u32 = 0x0084_0068;
    /// Shutdown Imminent
    pub const SHUTDOWN_IMMINENT: u32 = 0x0084_0069;
    /// Switch On/Off
    pub const SWITCH_ON_OFF: u32 = 0x0084_006b;
    /// Switchable
    pub const SWITCHABLE: u32 = 0x0084_006c;
    /// Used
    pub const USED: u32 = 0x0084_006d;
    /// Boost
    pub const BOOST: u32 = 0x0084_006e;
    /// Buck
    pub const BUCK: u32 = 0x0084_006f;
    /// Initialized
    pub const INITIALIZED: u32 = 0x0084_0070;
    /// Tested
    pub const TESTED: u32 = 0x0084_0071;
    /// Awaiting Power
    pub const AWAITING_POWER: u32 = 0x0084_0072;
    /// Communication Lost
    pub const COMMUNICATION_LOST: u32 = 0x0084_0073;
    /// iManufacturer
    pub const I_MANUFACTURER: u32 = 0x0084_00fd;
    /// iProduct
    pub const I_PRODUCT: u32 = 0x0084_00fe;
    /// iSerialNumber
    pub const I_SERIAL_NUMBER: u32 = 0x0084_00ff;
}

/// The page Battery System.
pub mod battery_system {
    /// The number of the page: the high half of each usage.
    pub const PAGE: u32 = 0x0085;
    /// SMB Battery Mode
    pub const SMB_BATTERY_MODE: u32 = 0x0085_0001;
    /// SMB Battery Status
    pub const SMB_BATTERY_STATUS: u32 = 0x0085_0002;
    /// SMB Alarm Warning
    pub const SMB_ALARM_WARNING: u32 = 0x0085_0003;
    /// SMB Charger Mode
    pub const SMB_CHARGER_MODE: u32 = 0x0085_0004;
    /// SMB Charger Status
    pub const SMB_CHARGER_STATUS: u32 = 0x0085_0005;
    /// SMB Charger Spec Info
    pub const SMB_CHARGER_SPEC_INFO: u32 = 0x0085_0006;
    /// SMB Selector State
    pub const SMB_SELECTOR_STATE: u32 = 0x0085_0007;
    /// SMB Selector Presets
    pub const SMB_SELECTOR_PRESETS: u32 = 0x0085_0008;
    /// SMB Selector Info
    pub const SMB_SELECTOR_INFO: u32 = 0x0085_0009;
    /// Optional Mfg Function 1
    pub const OPTIONAL_MFG_FUNCTION_1: u32 = 0x0085_0010;
    /// Optional Mfg Function 2
    pub const OPTIONAL_MFG_FUNCTION_2: u32 = 0x0085_0011;
    /// Optional Mfg Function 3
    pub const OPTIONAL_MFG_FUNCTION_3: u32 = 0x0085_0012;
    /// Optional Mfg Function 4
    pub const OPTIONAL_MFG_FUNCTION_4: u32 = 0x0085_0013;
    /// Optional Mfg Function 5
    pub const OPTIONAL_MFG_FUNCTION_5: u32 = 0x0085_0014;
    /// Connection To SMBus
    pub const CONNECTION_TO_SM_BUS: u32 = 0x0085_0015;
    /// Output Connection
    pub const OUTPUT_CONNECTION: u32 = 0x0085_0016;
    /// Charger Connection
    pub const CHARGER_CONNECTION: u32 = 0x0085_0017;
    /// Battery Insertion
    pub const BATTERY_INSERTION: u32 = 0x0085_0018;
    /// Use Next
    pub const USE_NEXT: u32 = 0x0085_0019;
    /// OK To Use
    pub const OK_TO_USE: u32 = 0x0085_001a;
    /// Battery Supported
    pub const BATTERY_SUPPORTED: u32 = 0x0085_001b;
    /// Selector Revision
    pub const SELECTOR_REVISION: u32 = 0x0085_001c;
    /// Charging Indicator
    pub const CHARGING_INDICATOR: u32 = 0x0085_001d;
    /// Manufacturer Access
    pub const MANUFACTURER_ACCESS: u32 = 0x0085_0028;
    /// Remaining Capacity Limit
    pub const REMAINING_CAPACITY_LIMIT: u32 = 0x0085_0029;
    /// Remaining Time Limit
    pub const REMAINING_TIME_LIMIT: u32 = 0x0085_002a;
    /// At Rate
    pub const AT_RATE: u32 = 0x0085_002b;
    /// Capacity Mode
    pub const CAPACITY_MODE: u32 = 0x0085_002c;
    /// Broadcast To Charger
    pub const BROADCAST_TO_CHARGER: u32 = 0x0085_002d;
    /// Primary Battery
    pub const PRIMARY_BATTERY: u32 = 0x0085_002e;
    /// Charge Controller
    pub const CHARGE_CONTROLLER: u32 = 0x0085_002f;
    /// Terminate Charge
    pub const TERMINATE_CHARGE: u32 = 0x0085_0040;
    /// Terminate Discharge
    pub const TERMINATE_DISCHARGE: u32 = 0x0085_0041;
    /// Below Remaining Capacity Limit
    pub const BELOW_REMAINING_CAPACITY_LIMIT: u32 = 0x0085_0042;
    /// Remaining Time Limit Expired
    pub const REMAINING_TIME_LIMIT_EXPIRED: u32 = 0x0085_0043;
    /// Charging
    pub const CHARGING: u32 = 0x0085_0044;
    /// Discharging
    pub const DISCHARGING: u32 = 0x0085_0045;
    /// Fully Charged
    pub const FULLY_CHARGED: u32 = 0x0085_0046;
    /// Fully Discharged
    pub const FULLY_DISCHARGED: u32 = 0x0085_0047;
    /// Conditioning Flag
    pub const CONDITIONING_FLAG: u32 = 0x0085_0048;
    /// At Rate OK
    pub const AT_RATE_OK: u32 = 0x0085_0049;
    /// SMB Error Code
    pub const SMB_ERROR_CODE: u32 = 0x0085_004a;
    /// Need Replacement
    pub const NEED_REPLACEMENT: u32 = 0x0085_004b;
    /// At Rate Time To Full
    pub const AT_RATE_TIME_TO_FULL: u32 = 0x0085_0060;
    /// At Rate Time To Empty
    pub const AT_RATE_TIME_TO_EMPTY: u32 = 0x0085_0061;
    /// Average Current
    pub const AVERAGE_CURRENT: u32 = 0x0085_0062;
    /// Max Error
    pub const MAX_ERROR: u32 = 0x0085_0063;
    /// Relative State Of Charge
    pub const RELATIVE_STATE_OF_CHARGE: u32 = 0x0085_0064;
    /// Absolute State Of Charge
    pub const ABSOLUTE_STATE_OF_CHARGE: u32 = 0x0085_0065;
    /// Remaining Capacity
    pub const REMAINING_CAPACITY: u32 = 0x0085_0066;
    /// Full Charge Capacity
    pub const FULL_CHARGE_CAPACITY: u32 = 0x0085_0067;
    /// Run Time To Empty
    pub const RUN_TIME_TO_EMPTY: u32 = 0x0085_0068;
    /// Average Time To Empty
    pub const AVERAGE_TIME_TO_EMPTY: u32 = 0x0085_0069;
    /// Average Time To Full
    pub const AVERAGE_TIME_TO_FULL: u32 = 0x0085_006a;
    /// Cycle Count
    pub const CYCLE_COUNT: u32 = 0x0085_006b;
    /// Battery Pack Model Level
    pub const BATTERY_PACK_MODEL_LEVEL: u32 = 0x0085_0080;
    /// Internal Charge Controller
    pub const INTERNAL_CHARGE_CONTROLLER: u32 = 0x0085_0081;
    /// Primary Battery Support
    pub const PRIMARY_BATTERY_SUPPORT: u32 = 0x0085_0082;
    /// Design Capacity
    pub const DESIGN_CAPACITY: u32 = 0x0085_0083;
    /// Specification Info
    pub const SPECIFICATION_INFO: u32 = 0x0085_0084;
    /// Manufacture Date
    pub const MANUFACTURE_DATE: u32 = 0x0085_0085;
    /// Serial Number
    pub const SERIAL_NUMBER: u32 = 0x0085_0086;
    /// iManufacturer Name
    pub const I_MANUFACTURER_NAME: u32 = 0x0085_0087;
    /// iDevice Name
    pub const I_DEVICE_NAME: u32 = 0x0085_0088;
    /// iDevice Chemistry
    pub const I_DEVICE_CHEMISTRY: u32 = 0x0085_0089;
    /// Manufacturer Data
    pub const MANUFACTURER_DATA: u32 = 0x0085_008a;
    /// Rechargeable
    pub const RECHARGEABLE: u32 = 0x0085_008b;
    /// Warning Capacity Limit
    pub const WARNING_CAPACITY_LIMIT: u32 = 0x0085_008c;
    /// Capacity Granularity 1
    pub const CAPACITY_GRANULARITY_1: u32 = 0x0085_008d;
    /// Capacity Granularity 2
    pub const CAPACITY_GRANULARITY_2: u32 = 0x0085_008e;
    /// iOEM Information
    pub const I_OEM_INFORMATION: u32 = 0x0085_008f;
    /// Inhibit Charge
    pub const INHIBIT_CHARGE: u32 = 0x0085_00c0;
    /// Enable Polling
    pub const ENABLE_POLLING: u32 = 0x0085_00c1;
    /// Reset To Zero
    pub const RESET_TO_ZERO: u32 = 0x0085_00c2;
    /// AC Present
    pub const AC_PRESENT: u32 = 0x0085_00d0;
    /// Battery Present
    pub const BATTERY_PRESENT: u32 = 0x0085_00d1;
    /// Power Fail
    pub const POWER_FAIL: u32 = 0x0085_00d2;
    /// Alarm Inhibited
    pub const ALARM_INHIBITED: u32 = 0x0085_00d3;
    /// Thermistor Under Range
    pub const THERMISTOR_UNDER_RANGE: u32 = 0x0085_00d4;
    /// Thermistor Hot
    pub const THERMISTOR_HOT: u32 = 0x0085_00d5;
    /// Thermistor Cold
    pub const THERMISTOR_COLD: u32 = 0x0085_00d6;
    /// Thermistor Over Range
    pub const THERMISTOR_OVER_RANGE: u32 = 0x0085_00d7;
    /// Voltage Out Of Range
    pub const VOLTAGE_OUT_OF_RANGE: u32 = 0x0085_00d8;
    /// Current Out Of Range
    pub const CURRENT_OUT_OF_RANGE: u32 = 0x0085_00d9;
    /// Current Not Regulated
    pub const CURRENT_NOT_REGULATED: u32 = 0x0085_00da;
    /// Voltage Not Regulated
    pub const VOLTAGE_NOT_REGULATED: u32 = 0x0085_00db;
    /// Master Mode
    pub const MASTER_MODE: u32 = 0x0085_00dc;
    /// Charger Selector Support
    pub const CHARGER_SELECTOR_SUPPORT: u32 = 0x0085_00f0;
    /// Charger Spec
    pub const CHARGER_SPEC: u32 = 0x0085_00f1;
    /// Level 2
    pub const LEVEL_2: u32 = 0x0085_00f2;
    /// Level 3
    pub const LEVEL_3: u32 = 0x0085_00f3;
}

/// The page FIDO Alliance.
pub mod fido_alliance {
    /// The number of the page: the high half of each usage.
    pub const PAGE: u32 = 0xf1d0;
    /// U2F Authenticator Device
    pub const U2F_AUTHENTICATOR_DEVICE: u32 = 0xf1d0_0001;
    /// Input Report Data
    pub const INPUT_REPORT_DATA: u32 = 0xf1d0_0020;
    /// Output Report Data
    pub const OUTPUT_REPORT_DATA: u32 = 0xf1d0_0021;
}
