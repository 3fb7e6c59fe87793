.class public La/Main;
.super Landroid/app/Activity;
.method public native onStart()V
.end method
