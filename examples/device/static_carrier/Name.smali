# Names the static fields of the library class above it.
.class public La/Name;
.super Landroid/app/UiModeManager;
