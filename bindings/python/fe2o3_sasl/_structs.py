"""The structs of the library. Written by tools/generate/header.py."""

from __future__ import annotations

import ctypes


class _TextStruct(ctypes.Structure):
    _fields_ = [
        ("bytes", ctypes.c_void_p),
        ("bytes_len", ctypes.c_size_t),
    ]


class _ScramRecordStruct(ctypes.Structure):
    _fields_ = [
        ("version", ctypes.c_uint32),
        ("iterations", ctypes.c_uint32),
        ("salt_len", ctypes.c_uint32),
        ("salt", ctypes.c_uint8 * 128),
        ("stored_key", ctypes.c_uint8 * 64),
        ("server_key", ctypes.c_uint8 * 64),
    ]


class _ScramKeysStruct(ctypes.Structure):
    _fields_ = [
        ("version", ctypes.c_uint32),
        ("iterations", ctypes.c_uint32),
        ("salt_len", ctypes.c_uint32),
        ("salt", ctypes.c_uint8 * 128),
        ("client_key", ctypes.c_uint8 * 64),
        ("server_key", ctypes.c_uint8 * 64),
    ]


class _LoginStruct(ctypes.Structure):
    _fields_ = [
        ("version", ctypes.c_uint32),
        ("secret", ctypes.c_uint32),
        ("form", ctypes.c_uint32),
        ("min_iterations", ctypes.c_uint32),
        ("max_iterations", ctypes.c_uint32),
        ("username", ctypes.c_char_p),
        ("username_len", ctypes.c_size_t),
        ("acts_for", ctypes.c_char_p),
        ("acts_for_len", ctypes.c_size_t),
        ("password", ctypes.c_char_p),
        ("password_len", ctypes.c_size_t),
        ("keys", ctypes.POINTER(_ScramKeysStruct)),
        ("signature_by_challenge", ctypes.c_uint32),
        ("strict", ctypes.c_uint32),
        ("channel_use", ctypes.c_uint32),
        ("channel_kind", ctypes.c_uint32),
        ("channel_data_len", ctypes.c_uint32),
        ("channel_data", ctypes.c_uint8 * 64),
    ]


class _ScramClientStruct(ctypes.Structure):
    _fields_ = [
        ("state", ctypes.c_uint32),
        ("signature_len", ctypes.c_uint32),
        ("nonce", ctypes.c_uint8 * 32),
        ("signature", ctypes.c_uint8 * 64),
        ("keys", _ScramKeysStruct),
    ]


class _ScramServerStruct(ctypes.Structure):
    _fields_ = [
        ("state", ctypes.c_uint32),
        ("version", ctypes.c_uint32),
        ("user_len", ctypes.c_uint32),
        ("bare_len", ctypes.c_uint32),
        ("nonce_len", ctypes.c_uint32),
        ("first_len", ctypes.c_uint32),
        ("acts_for_len", ctypes.c_uint32),
        ("rejection", ctypes.c_uint32),
        ("user", ctypes.c_uint8 * 256),
        ("bare", ctypes.c_uint8 * 1024),
        ("nonce", ctypes.c_uint8 * 512),
        ("first", ctypes.c_uint8 * 1024),
        ("acts_for", ctypes.c_uint8 * 256),
    ]


class _ServerChannelsStruct(ctypes.Structure):
    _fields_ = [
        ("binds_channel", ctypes.c_uint32),
        ("tls_unique_len", ctypes.c_uint32),
        ("tls_unique", ctypes.c_uint8 * 64),
        ("tls_server_end_point_len", ctypes.c_uint32),
        ("tls_server_end_point", ctypes.c_uint8 * 64),
        ("tls_exporter_len", ctypes.c_uint32),
        ("tls_exporter", ctypes.c_uint8 * 64),
    ]


class _ScramRulesStruct(ctypes.Structure):
    _fields_ = [
        ("accept_cbind_flag_y", ctypes.c_uint32),
        ("strict", ctypes.c_uint32),
        ("channels", _ServerChannelsStruct),
        ("accept_authzid", ctypes.c_uint32),
        ("reject_misplaced", ctypes.c_uint32),
        ("identities", ctypes.c_char_p),
        ("identities_len", ctypes.c_size_t),
    ]


class _ConnectionStruct(ctypes.Structure):
    _fields_ = [
        ("progress", ctypes.c_uint32),
        ("why", ctypes.c_uint32),
        ("expected", ctypes.c_uint32),
        ("held_len", ctypes.c_uint32),
        ("held", ctypes.c_uint8 * 512),
        ("extended_headers", ctypes.c_uint32),
    ]


class _SaslLoginStruct(ctypes.Structure):
    _fields_ = [
        ("mechanism", ctypes.c_uint32),
        ("hostname", ctypes.c_char_p),
        ("hostname_len", ctypes.c_size_t),
        ("login", _LoginStruct),
    ]


class _SaslClientStruct(ctypes.Structure):
    _fields_ = [
        ("connection", _ConnectionStruct),
        ("scram", _ScramClientStruct),
    ]


class _SaslServerConfigStruct(ctypes.Structure):
    _fields_ = [
        ("mechanisms", ctypes.c_uint32),
        ("flags", ctypes.c_uint32),
        ("iterations", ctypes.c_uint32),
        ("mock_salt_len", ctypes.c_uint32),
        ("mock_secret", ctypes.c_char_p),
        ("mock_secret_len", ctypes.c_size_t),
        ("looked_up", ctypes.c_uint32),
        ("username", ctypes.c_char_p),
        ("username_len", ctypes.c_size_t),
        ("records", ctypes.POINTER(_ScramRecordStruct)),
        ("records_count", ctypes.c_size_t),
        ("external_authcid", ctypes.c_char_p),
        ("external_authcid_len", ctypes.c_size_t),
        ("channels", _ServerChannelsStruct),
        ("accept_authzid", ctypes.c_uint32),
        ("identities", ctypes.c_char_p),
        ("identities_len", ctypes.c_size_t),
    ]


class _SaslServerStruct(ctypes.Structure):
    _fields_ = [
        ("connection", _ConnectionStruct),
        ("scram", _ScramServerStruct),
    ]


class _SaslFrameViewStruct(ctypes.Structure):
    _fields_ = [
        ("kind", ctypes.c_uint32),
        ("code", ctypes.c_uint32),
        ("has_message", ctypes.c_uint32),
        ("has_hostname", ctypes.c_uint32),
        ("count", ctypes.c_size_t),
        ("taken", ctypes.c_size_t),
        ("mechanism", ctypes.c_void_p),
        ("mechanism_len", ctypes.c_size_t),
        ("message", ctypes.c_void_p),
        ("message_len", ctypes.c_size_t),
        ("hostname", ctypes.c_void_p),
        ("hostname_len", ctypes.c_size_t),
    ]


# The structs in the order of the numbers of `fe2o3_size`.
_SIZED = (
    _LoginStruct,
    _ScramClientStruct,
    _ScramKeysStruct,
    _ScramServerStruct,
    _ScramRecordStruct,
    _ConnectionStruct,
    _SaslLoginStruct,
    _SaslClientStruct,
    _SaslFrameViewStruct,
    _SaslServerConfigStruct,
    _SaslServerStruct,
    _ScramRulesStruct,
)
